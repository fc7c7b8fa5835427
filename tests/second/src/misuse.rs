//! Damage to a recording's starts and joins, and to the tasks that are joined.

use crate::draws::{any_event, ALL};
use crate::locks::Locks;
use crate::questions::Questions;
use crate::random::Random;
use crate::recording::{Event, Operation, LOCKS, TASKS, VARIABLES};
use crate::shapes::LONGEST;
use crate::tasks::Tasks;

/// Puts an event into a well-formed recording that question 15 or 16 refuses there, or an earlier one at a
/// task already joined, or 4 for its object; or a join that makes a later event refused.
pub fn misuse_task(random: &mut Random, events: &mut Vec<Event>) {
    match random.below(16) {
        0..=1 => put_unknown_object(random, events),
        2 => put_early_join(random, events),
        3..=6 => put_refused(random, events, Operation::Fork, 15),
        7 => put_refused(random, events, Operation::Acquire, 5),
        8 => put_refused(random, events, Operation::Release, 6),
        9 => put_refused(random, events, Operation::Read, 7),
        10 => put_refused(random, events, Operation::Read, 16),
        11 => put_refused(random, events, Operation::Write, 16),
        12 => put_refused(random, events, Operation::Acquire, 16),
        13 => put_refused(random, events, Operation::Release, 16),
        14 => put_refused(random, events, Operation::Fork, 16),
        _ => put_refused(random, events, Operation::Join, 16),
    }
    events.truncate(LONGEST);
}

/// Puts in an acquire or release of an object that is neither a lock nor a task, at times by a joined task.
fn put_unknown_object(random: &mut Random, events: &mut Vec<Event>) {
    let at = random.between(0, events.len());
    let at = if random.chance(30) { put_join(random, events, at) } else { at };
    let operation = random.pick(&[Operation::Acquire, Operation::Release]);
    let first = LOCKS + TASKS;
    let last = VARIABLES - 1;
    let any = random.between(first, last);
    let object = random.pick(&[first, first, first, 81, 96, 128, 512, any, last, last, last]);
    let task = any_task(random, &events[..at]);
    events.insert(at, Event { operation, task, object });
}

/// Puts in a join of a task that has an event later, by a task that has one there.
fn put_early_join(random: &mut Random, events: &mut Vec<Event>) {
    if !events.is_empty() {
        let later = random.below(events.len());
        let at = random.below(later + 1);
        events.insert(at, Event::join(events[at].task, events[later].task));
    }
}

/// Puts in an event of this operation that this question refuses there, if one is found; mostly after a join
/// that is put in for it, or at a joined task.
fn put_refused(random: &mut Random, events: &mut Vec<Event>, operation: Operation, number: u64) {
    let after_forks: Vec<usize> =
        (1..=events.len()).filter(|&at| events[at - 1].operation == Operation::Fork).collect();
    let at = if operation == Operation::Fork && !after_forks.is_empty() && random.chance(40) {
        random.pick(&after_forks)
    } else {
        let any = random.between(0, events.len());
        if random.chance(70) {
            put_join(random, events, any)
        } else {
            any
        }
    };
    let questions = Questions::after(&events[..at]);
    let kind = |event: &Event| (event.uses_lock(), event.names_task());
    let is_like = |event: &&Event| kind(event) == kind(&Event { operation, ..**event });
    let like: Vec<Event> = events[..at].iter().filter(is_like).copied().collect();
    for _ in 0..100 {
        let mut event = any_event(random, operation, ALL);
        if !like.is_empty() && random.chance(60) {
            event.object = random.pick(&like).object;
        }
        if random.chance(70) {
            event.task = any_task(random, &events[..at]);
        }
        if event.names_task() && random.chance(40) {
            event.object = if random.chance(40) { event.task } else { any_task(random, &events[..at]) };
        }
        if questions.first_no(event) == Some(number) {
            return events.insert(at, event);
        }
    }
}

/// A joined task, if these events have any, mostly, or any task.
fn any_task(random: &mut Random, events: &[Event]) -> usize {
    let records = Tasks::after(events);
    let joined: Vec<usize> = (0..TASKS).filter(|&task| records.is_joined(task)).collect();
    if joined.is_empty() || random.chance(20) {
        random.below(TASKS)
    } else {
        random.pick(&joined)
    }
}

/// Puts in a join of a task, mostly of one that holds a lock, by a task that can join it, and gives the place
/// after it; the same place if no such task is found.
fn put_join(random: &mut Random, events: &mut Vec<Event>, at: usize) -> usize {
    let questions = Questions::after(&events[..at]);
    let mut locks = Locks::all_free();
    events[..at].iter().for_each(|&event| locks.pass(event));
    let holders: Vec<usize> = (0..LOCKS).filter_map(|lock| locks.holder(lock)).collect();
    for _ in 0..20 {
        let mut join = any_event(random, Operation::Join, ALL);
        if !holders.is_empty() && random.chance(60) {
            join.object = random.pick(&holders);
        }
        if questions.first_no(join).is_none() {
            events.insert(at, join);
            return at + 1;
        }
    }
    at
}

#[cfg(test)]
mod tests {
    use super::*;
    use crate::recording::{encode, Recording, Refusal};
    use crate::shapes::{any_events, Class};

    #[test]
    fn misused_tasks_are_refused() {
        let random = &mut Random::new(19);
        let mut refusals = Vec::new();
        for _ in 0..1000 {
            let mut events = any_events(random, Class::Small);
            misuse_task(random, &mut events);
            if let Err(Refusal { number, event }) = Recording::read(&encode(&events)) {
                let earlier = &events[..event as usize - 1];
                let by_joined = Tasks::after(earlier).is_joined(events[event as usize - 1].task);
                refusals.push((number, by_joined));
            }
        }
        assert!(refusals.len() > 800);
        let expected = [
            (4, false),
            (4, true),
            (5, true),
            (6, true),
            (7, true),
            (15, false),
            (15, true),
            (16, false),
            (16, true),
        ];
        for refusal in expected {
            assert!(refusals.iter().filter(|&&other| other == refusal).count() > 9, "{refusal:?}");
        }
    }
}
