//! The relations of 01: held locks, match, writer and predecessor of each event.

use crate::locks::Locks;
use crate::recording::{Event, Operation, LOCKS, TASKS};

/// What 01 tells of one event; event number 0 means "none".
#[derive(Clone, Copy, Debug, Default, PartialEq, Eq)]
pub struct Relations {
    /// Bit l for lock l.
    pub held: u64,
    pub matching: usize,
    pub writer: usize,
    pub predecessor: usize,
    /// What a join waits for, which closures use and no call returns.
    pub awaited: usize,
}

/// 01: "For one event number: the held locks [...]; the match; the writer; the predecessor.", here
/// for every event of a well-formed recording in turn, of which some are outer ones, with the tasks' starts.
pub fn relations_of(events: &[Event], outer: &[bool], forks: &[usize; TASKS]) -> Vec<Relations> {
    let held = held_before(events);
    let of_event = |index: usize| Relations {
        held: held[index],
        matching: matching(events, outer, index),
        writer: writer(events, index),
        predecessor: predecessor(events, forks, index),
        awaited: awaited(events, forks, index),
    };
    (0..events.len()).map(of_event).collect()
}

/// "the held locks, which are those that the event's own task holds right before it"; 02, job 9: "Held locks
/// stay a set.": a lock is among them once, whatever its depth, and an inner acquire's lock is among its own.
fn held_before(events: &[Event]) -> Vec<u64> {
    let mut locks = Locks::all_free();
    let mut before = Vec::new();
    for &event in events {
        let held = (0..LOCKS).filter(|&lock| locks.holder(lock) == Some(event.task));
        before.push(held.fold(0, |mask, lock| mask | 1 << lock));
        locks.pass(event);
    }
    before
}

/// "An acquire's match is the first later release of its lock by its task, or 0. A release's match is its
/// acquire. Reads and writes have match 0."; 02, job 9: "Only the acquire from depth 0 and the release to
/// depth 0 count as acquire and release in [...] match [...]; inner ones have match 0"; job 1, of starts
/// and joins: "both have match 0".
fn matching(events: &[Event], outer: &[bool], index: usize) -> usize {
    let Event { operation, task, object } = events[index];
    let counts =
        |at: usize, wanted: Operation| outer[at] && events[at] == Event { operation: wanted, task, object };
    match operation {
        Operation::Acquire if outer[index] => {
            let mut later = index + 1..events.len();
            later.find(|&at| counts(at, Operation::Release)).map_or(0, number)
        }
        Operation::Release if outer[index] => latest_before(index, |at| counts(at, Operation::Acquire)),
        _ => 0,
    }
}

/// "A read's writer is the latest earlier write of its variable; other events have writer 0."
fn writer(events: &[Event], index: usize) -> usize {
    let Event { operation, object, .. } = events[index];
    if operation != Operation::Read {
        return 0;
    }
    let writes = |event: Event| event.operation == Operation::Write && event.object == object;
    latest_before(index, |earlier| writes(events[earlier]))
}

/// "The predecessor is the task's latest earlier event, or 0."; 02, job 1: "The predecessor of a started
/// task's first event is its start".
fn predecessor(events: &[Event], forks: &[usize; TASKS], index: usize) -> usize {
    latest_of_task(events, forks, events[index].task, index)
}

/// 02, job 1, for a join: "A joined task's last event, or its start if it has no event, also belongs to any
/// closure holding the join."; other events wait for 0. A joined task has no later events.
fn awaited(events: &[Event], forks: &[usize; TASKS], index: usize) -> usize {
    match events[index].operation {
        Operation::Join => latest_of_task(events, forks, events[index].object, index),
        _ => 0,
    }
}

/// The task's latest event before this one, or its start where there is none, or 0. By questions 15 and 16 no
/// start of the task comes after its own first event, nor after a join of it.
fn latest_of_task(events: &[Event], forks: &[usize; TASKS], task: usize, index: usize) -> usize {
    match latest_before(index, |earlier| events[earlier].task == task) {
        0 => forks[task],
        latest => latest,
    }
}

/// The number of the latest event before this one that fulfils a condition, or 0.
fn latest_before(index: usize, condition: impl Fn(usize) -> bool) -> usize {
    (0..index).rev().find(|&earlier| condition(earlier)).map_or(0, number)
}

/// The number of the event at an index: "Events are numbered from 1".
fn number(index: usize) -> usize {
    index + 1
}
