//! Random events of every kind, and recordings of those that no question refuses.

use crate::questions::Questions;
use crate::random::Random;
use crate::recording::{Event, Operation, LOCKS, TASKS, VARIABLES};

/// How many tasks, locks and variables there are to draw from.
#[derive(Clone, Copy)]
pub struct Ranges {
    pub tasks: usize,
    pub locks: usize,
    pub variables: usize,
}

/// All tasks, locks and variables.
pub const ALL: Ranges = Ranges { tasks: TASKS, locks: LOCKS, variables: VARIABLES };

/// Any operation, starts and joins less often than the others.
pub fn any_operation(random: &mut Random) -> Operation {
    match random.below(20) {
        0..=2 => Operation::Read,
        3..=4 => Operation::Write,
        5..=10 => Operation::Acquire,
        11..=16 => Operation::Release,
        17..=18 => Operation::Fork,
        _ => Operation::Join,
    }
}

/// Any event of the operation.
pub fn any_event(random: &mut Random, operation: Operation, ranges: Ranges) -> Event {
    let objects = match operation {
        Operation::Read | Operation::Write => ranges.variables,
        Operation::Acquire | Operation::Release => ranges.locks,
        Operation::Fork | Operation::Join => ranges.tasks,
    };
    Event { operation, task: random.below(ranges.tasks), object: random.below(objects) }
}

/// A well-formed recording of at most so many events, drawn one by one, with the refused ones left out.
pub fn draws(random: &mut Random, limit: usize) -> Vec<Event> {
    let tasks = random.pick(&[2, 3, 4, 6, TASKS]);
    let ranges = Ranges { tasks, locks: random.between(1, 4), variables: random.between(1, 3) };
    draws_within(random, ranges, limit)
}

/// Such a recording of few tasks, two locks and a variable.
pub fn draws_of_few(random: &mut Random, limit: usize) -> Vec<Event> {
    let ranges = Ranges { tasks: random.between(2, 4), locks: 2, variables: 1 };
    draws_within(random, ranges, limit)
}

/// Such a recording of these tasks, locks and variables.
fn draws_within(random: &mut Random, ranges: Ranges, limit: usize) -> Vec<Event> {
    let mut questions = Questions::at_first();
    let mut events = Vec::new();
    for _ in 0..8 * limit {
        let operation = any_operation(random);
        let event = any_event(random, operation, ranges);
        if events.len() < limit && questions.first_no(event).is_none() {
            questions.pass(event);
            events.push(event);
        }
    }
    events
}

#[cfg(test)]
mod tests {
    use super::*;
    use crate::recording::{encode, Recording};

    #[test]
    fn every_operation_is_drawn() {
        let random = &mut Random::new(2);
        let mut drawn = Vec::new();
        for _ in 0..100 {
            let events = draws(random, 40);
            assert!(Recording::read(&encode(&events)).is_ok());
            drawn.extend(events.iter().map(|event| event.operation as usize));
        }
        for operation in 0..6 {
            assert!(drawn.iter().filter(|&&other| other == operation).count() > 50);
        }
    }
}
