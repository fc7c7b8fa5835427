//! The record kept for each lock, and which acquires and releases are outer ones: 02, job 9.

use crate::recording::{Event, Operation, LOCKS};

/// "The record kept for each lock becomes holder and depth."; no task holds a lock of depth 0.
#[derive(Clone, Copy, Debug, Default)]
struct Record {
    holder: usize,
    /// 4,095 at most, where every event of a recording acquires the lock.
    depth: usize,
}

/// The records of all locks at a point of a recording.
#[derive(Clone, Debug)]
pub struct Locks([Record; LOCKS]);

impl Locks {
    /// The records before the first event.
    pub fn all_free() -> Locks {
        Locks([Record::default(); LOCKS])
    }

    /// The acquires of the lock, less its releases, by the task that holds it; 0 where none does.
    pub fn depth(&self, lock: usize) -> usize {
        self.0[lock].depth
    }

    /// The task that holds the lock, if any.
    pub fn holder(&self, lock: usize) -> Option<usize> {
        let Record { holder, depth } = self.0[lock];
        (depth > 0).then_some(holder)
    }

    /// "Question 5 is "no" only where another task holds the lock".
    pub fn is_held_by_another(&self, lock: usize, task: usize) -> bool {
        self.holder(lock).is_some_and(|holder| holder != task)
    }

    /// The records after an event that no question refuses here.
    pub fn pass(&mut self, event: Event) {
        match event.operation {
            Operation::Acquire => {
                let depth = self.depth(event.object) + 1;
                self.0[event.object] = Record { holder: event.task, depth };
            }
            Operation::Release => self.0[event.object].depth -= 1,
            Operation::Read | Operation::Write | Operation::Fork | Operation::Join => {}
        }
    }

    /// "the acquire from depth 0 and the release to depth 0", which such an event is or is not here.
    fn is_outer(&self, event: Event) -> bool {
        match event.operation {
            Operation::Acquire => self.depth(event.object) == 0,
            Operation::Release => self.depth(event.object) == 1,
            Operation::Read | Operation::Write | Operation::Fork | Operation::Join => false,
        }
    }
}

/// For each event of a well-formed recording, in turn, whether it is an outer one: "Only the acquire from
/// depth 0 and the release to depth 0 count as acquire and release in closure, match, schedules and
/// patterns".
pub fn outer_events(events: &[Event]) -> Vec<bool> {
    let mut locks = Locks::all_free();
    let mut outer = Vec::new();
    for &event in events {
        outer.push(locks.is_outer(event));
        locks.pass(event);
    }
    outer
}
