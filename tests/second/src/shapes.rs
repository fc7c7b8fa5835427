//! Random well-formed recordings of all sizes.

use crate::draws::draws;
use crate::forking::with_forks;
use crate::inner::{with_inner_pairs, with_towers, with_turns_before};
use crate::random::Random;
use crate::recording::{Event, Operation, LOCKS, TASKS, VARIABLES};
use crate::styles::Style;
use crate::tasks::Tasks;

/// The most events of a recording.
pub const LONGEST: usize = 4095;

/// How many events a recording shall have, about.
#[derive(Clone, Copy, Debug, PartialEq, Eq)]
pub enum Class {
    Tiny,
    Small,
    Middle,
    Large,
    Full,
}

/// A well-formed recording of one of the styles, at times with locks taken again by their holder, and at
/// times with tasks that are started and joined; or of events of every kind.
pub fn any_events(random: &mut Random, class: Class) -> Vec<Event> {
    let limit = limit(random, class);
    let style = Style::any(random);
    let mut events = match random.below(100) {
        0..=5 if limit < 100 => draws(random, limit),
        0..=49 => any_forked_events(random, style, limit),
        _ => any_nested_events(random, style, limit),
    };
    if class == Class::Full {
        fill(random, &mut events, limit);
    } else if random.chance(20) {
        events.truncate(random.below(events.len() + 1));
    }
    if random.chance(60) {
        rename(random, &mut events);
    }
    events
}

/// A recording of this style with starts and joins, at times before and after all other events. A long one
/// that does the same again and again always has them there: with most of its many like patterns kept out
/// late in the search, a listing would take very long.
fn any_forked_events(random: &mut Random, style: Style, limit: usize) -> Vec<Event> {
    let repeats = style == Style::Ring || style == Style::Crossing;
    let apart = if repeats && limit >= 100 { 100 } else { 40 };
    let events = any_nested_events(random, style, limit - limit / 50);
    let apart = random.chance(apart);
    with_forks(random, events, apart)
}

/// A recording of this style, at times with locks taken again by their holder.
fn any_nested_events(random: &mut Random, style: Style, limit: usize) -> Vec<Event> {
    let towers = if limit < 100 { 10 } else { 30 };
    match random.below(100) {
        0..=44 => style.events(random, limit),
        kind if kind < 100 - towers => {
            let plain = style.events(random, limit * 2 / 3);
            let plain = if random.chance(50) { with_turns_before(random, &plain) } else { plain };
            with_inner_pairs(random, &plain, limit.max(plain.len() + 8))
        }
        _ => {
            let few = random.between(5, 60).min(limit);
            let plain = style.events(random, few);
            with_towers(random, &plain, limit.max(plain.len() + 8))
        }
    }
}

/// A well-formed recording of one of the styles, in which every acquire is from depth 0.
pub fn any_plain_events(random: &mut Random, class: Class) -> Vec<Event> {
    let limit = limit(random, class);
    Style::any(random).events(random, limit)
}

/// A number of events of the class.
fn limit(random: &mut Random, class: Class) -> usize {
    match class {
        Class::Tiny => random.below(3),
        Class::Small => random.between(5, 60),
        Class::Middle => random.between(100, 900),
        Class::Large => random.between(1000, 4094),
        Class::Full => LONGEST,
    }
}

/// Appends writes by tasks that are not joined until there are enough events.
fn fill(random: &mut Random, events: &mut Vec<Event>, count: usize) {
    let records = Tasks::after(events);
    let tasks: Vec<usize> = (0..TASKS).filter(|&task| !records.is_joined(task)).collect();
    while events.len() < count {
        let (task, object) = (random.pick(&tasks), random.below(VARIABLES));
        events.push(Event { operation: Operation::Write, task, object });
    }
}

/// Gives tasks, locks and variables other numbers, so that the highest ones occur too.
fn rename(random: &mut Random, events: &mut [Event]) {
    let (tasks, locks, shift) =
        (random.permutation(TASKS), random.permutation(LOCKS), random.below(VARIABLES));
    for event in events {
        event.task = tasks[event.task];
        event.object = match event.operation {
            Operation::Read | Operation::Write => (event.object + shift) % VARIABLES,
            Operation::Acquire | Operation::Release => locks[event.object],
            Operation::Fork | Operation::Join => tasks[event.object],
        };
    }
}

#[cfg(test)]
mod tests {
    use super::*;
    use crate::questions::ask_event_by_event;

    #[test]
    fn recordings_of_all_sizes_are_well_formed() {
        let random = &mut Random::new(37);
        let mut full_with_joins = 0;
        for class in [Class::Tiny, Class::Small, Class::Middle, Class::Large, Class::Full] {
            for _ in 0..60 {
                let events = any_events(random, class);
                assert_eq!(ask_event_by_event(&events), Ok(()));
                assert!(events.len() <= LONGEST);
                if class == Class::Full {
                    assert_eq!(events.len(), LONGEST);
                    let has_join = events.iter().any(|event| event.operation == Operation::Join);
                    full_with_joins += usize::from(has_join);
                }
            }
        }
        assert!(full_with_joins > 5);
    }
}
