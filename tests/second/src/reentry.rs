//! What the requests and their answers show of locks taken again by their holder: 02, job 9.

use crate::closure::set_has;
use crate::locks::{outer_events, Locks};
use crate::protocol::{bytes, entries_of, events_of, number, numbers_in, Answer};
use crate::recording::{Event, Operation, LOCKS, TASKS};

/// Counts of what occurred.
#[derive(Default)]
pub struct Reentry {
    /// Accepted recordings with an inner acquire.
    recordings: u64,
    greatest_depth: usize,
    /// Those in which a task, with two locks taken again, releases the one that it acquired earlier.
    crossed: u64,
    /// Relations asked for of inner events.
    relations: u64,
    /// Loads of a lock that is taken again.
    loads: u64,
    /// Closures with an inner event that the lent set had not.
    closures: u64,
    /// Deadlocks listed in recordings with inner events.
    deadlocks: u64,
    /// Witnesses with inner events.
    witnesses: u64,
    /// Schedules with inner events that the checker said no to, and yes.
    schedules: [u64; 2],
    /// Acquires refused with 5, of a lock at depth 2 or more, and at depth 1 after an inner release.
    refused_deep: u64,
    refused_after_inner: u64,
    /// Releases refused with 6, by the task that released the lock last, which had taken it again.
    refused_beyond: u64,
    /// Patterns refused with 10 that have an inner acquire.
    refused_patterns: u64,
}

impl Reentry {
    /// Counts what a request and its answer show.
    pub fn count(&mut self, request: &str, answer: &Answer) {
        let words: Vec<&str> = request.split(' ').collect();
        let events = words.get(1).and_then(|word| events_of(word)).unwrap_or_default();
        match answer.refusal.number {
            1..=4 | 7 | 15 | 16 => {}
            5 | 6 => self.count_misuse(&events[..answer.refusal.event as usize]),
            _ => {
                let nesting = Nesting { outer: outer_events(&events), events };
                if nesting.numbers().any(|event| nesting.is_inner_acquire(event)) {
                    self.count_accepted(&words, answer, &nesting);
                }
            }
        }
    }

    /// Counts the refusal of the last event because of its lock.
    fn count_misuse(&mut self, events: &[Event]) {
        let Some((&refused, earlier)) = events.split_last() else {
            return;
        };
        let history = History::of(earlier);
        let depth = history.locks.depth(refused.object);
        let was_taken_again = history.greatest_since_free[refused.object] > 1;
        let by_last_holder = history.latest_holder[refused.object] == refused.task;
        match refused.operation {
            Operation::Acquire if depth > 1 => self.refused_deep += 1,
            Operation::Acquire if was_taken_again => self.refused_after_inner += 1,
            Operation::Release if depth == 0 && was_taken_again && by_last_holder => self.refused_beyond += 1,
            _ => {}
        }
    }

    /// Counts a request about an accepted recording with an inner acquire.
    fn count_accepted(&mut self, words: &[&str], answer: &Answer, nesting: &Nesting) {
        self.recordings += 1;
        let history = History::of(&nesting.events);
        self.greatest_depth = self.greatest_depth.max(history.greatest);
        self.crossed += u64::from(history.crossed);
        match (answer.refusal.number, words) {
            (0, _) => self.count_answer(words, answer, nesting),
            (10, [_, _, pattern, ..]) => {
                let has_inner_acquire = numbers_in(pattern).into_iter().any(|e| nesting.is_inner_acquire(e));
                self.refused_patterns += u64::from(has_inner_acquire);
            }
            _ => {}
        }
    }

    /// Counts what such a request was answered, where nothing is refused.
    fn count_answer(&mut self, words: &[&str], answer: &Answer, nesting: &Nesting) {
        let answered: Vec<&str> = answer.line.split(' ').collect();
        let any_inner = |word: &str| numbers_in(word).into_iter().any(|event| nesting.is_inner(event));
        match (words, &answered[..]) {
            (["relations", _, event], _) => {
                let is_inner = number(event).is_some_and(|e| nesting.is_inner(e as usize));
                self.relations += u64::from(is_inner);
            }
            (["load", _, lock], _) => {
                let taken_again = number(lock).is_some_and(|lock| nesting.takes_again(lock as usize));
                self.loads += u64::from(taken_again);
            }
            (["close", _, lent], [.., closed]) => {
                let (lent, closed) = (bytes(lent).unwrap_or_default(), bytes(closed).unwrap_or_default());
                let is_added = |event: usize| set_has(&closed, event) && !set_has(&lent, event);
                self.closures += u64::from(nesting.numbers().any(|e| nesting.is_inner(e) && is_added(e)));
            }
            (["witness", ..], [_, _, "1", written, lent]) => {
                let digits = 2 * number(written).unwrap_or(0) as usize;
                self.witnesses += u64::from(any_inner(&lent[..digits]));
            }
            (["schedule", _, _, list], [_, _, said]) if any_inner(list) => {
                self.schedules[usize::from(*said == "1")] += 1;
            }
            _ => self.deadlocks += entries_of(words, answer).map_or(0, |(_, entries)| entries.len() as u64),
        }
    }

    /// The counts as two lines of text.
    pub fn text(&self) -> String {
        let [other_schedules, valid_schedules] = self.schedules;
        format!(
            "locks taken again: accepted recordings with an inner acquire {}, greatest depth {}, \
             two locks taken again and released across {}, inner events asked for {}, loads {}, \
             closures adding inner events {}, deadlocks listed {}, \
             witnesses with inner events {}, valid schedules with inner events {}, \
             other schedules with inner events {}\n\
             refusals at locks taken again: 5 at depth 2 or more {}, 5 at depth 1 after an inner release {}, \
             6 beyond the depth {}, 10 for an inner acquire {}",
            self.recordings,
            self.greatest_depth,
            self.crossed,
            self.relations,
            self.loads,
            self.closures,
            self.deadlocks,
            self.witnesses,
            valid_schedules,
            other_schedules,
            self.refused_deep,
            self.refused_after_inner,
            self.refused_beyond,
            self.refused_patterns
        )
    }
}

/// The events of an accepted recording, and which of them are outer ones.
struct Nesting {
    events: Vec<Event>,
    outer: Vec<bool>,
}

impl Nesting {
    /// The event numbers of the recording.
    fn numbers(&self) -> std::ops::RangeInclusive<usize> {
        1..=self.events.len()
    }

    /// Whether it is the number of an inner acquire or release.
    fn is_inner(&self, event: usize) -> bool {
        self.numbers().contains(&event) && self.events[event - 1].uses_lock() && !self.outer[event - 1]
    }

    /// Whether it is the number of an inner acquire.
    fn is_inner_acquire(&self, event: usize) -> bool {
        self.is_inner(event) && self.events[event - 1].operation == Operation::Acquire
    }

    /// Whether the lock has an inner acquire.
    fn takes_again(&self, lock: usize) -> bool {
        self.numbers().any(|event| self.is_inner_acquire(event) && self.events[event - 1].object == lock)
    }
}

/// The locks after some events, none of which is refused because of its lock.
struct History {
    locks: Locks,
    latest_holder: [usize; LOCKS],
    /// The greatest depth of each lock since it was last taken from depth 0.
    greatest_since_free: [usize; LOCKS],
    /// The greatest depth of any lock.
    greatest: usize,
    /// For each task the locks that it has acquired and not released, as often, the latest last.
    acquired: [Vec<usize>; TASKS],
    /// Whether a task, with two locks taken again, released the one that it had acquired earlier.
    crossed: bool,
}

impl History {
    fn of(events: &[Event]) -> History {
        let mut history = History {
            locks: Locks::all_free(),
            latest_holder: [0; LOCKS],
            greatest_since_free: [0; LOCKS],
            greatest: 0,
            acquired: Default::default(),
            crossed: false,
        };
        for &event in events {
            if event.operation == Operation::Release {
                history.release(event.task, event.object);
            }
            history.locks.pass(event);
            if event.operation == Operation::Acquire {
                history.acquire(event.task, event.object);
            }
        }
        history
    }

    /// Notes a release before its lock's record changes.
    fn release(&mut self, task: usize, lock: usize) {
        let acquired = &mut self.acquired[task];
        let Some(at) = acquired.iter().rposition(|&other| other == lock) else {
            return;
        };
        acquired.remove(at);
        let later = &acquired[at..];
        self.crossed |= self.locks.depth(lock) > 1 && later.iter().any(|&other| self.locks.depth(other) > 1);
    }

    /// Notes an acquire after its lock's record has changed.
    fn acquire(&mut self, task: usize, lock: usize) {
        self.acquired[task].push(lock);
        let depth = self.locks.depth(lock);
        let greatest = &mut self.greatest_since_free[lock];
        *greatest = if depth == 1 { 1 } else { depth.max(*greatest) };
        self.latest_holder[lock] = task;
        self.greatest = self.greatest.max(depth);
    }
}

#[cfg(test)]
mod tests {
    use super::Reentry;
    use crate::protocol::{answer, hexadecimal};
    use crate::rows::row;

    /// The counts of requests about recordings in 01's notation.
    fn counted(requests: &[(&str, &str, &str)]) -> Reentry {
        let mut reentry = Reentry::default();
        for (call, text, arguments) in requests {
            let request = format!("{call} {}{arguments}", hexadecimal(&row(text)));
            reentry.count(&request, &answer(&request).expect("a request"));
        }
        reentry
    }

    #[test]
    fn answers_are_counted() {
        let again = "T0 a0 a0 r0 r0, T1 a0";
        let pattern = "T0 a0 a0 a1 a1 r1 r1 r0 r0, T1 a1 a0 r0 r1";
        let reentry = counted(&[
            ("relations", again, " 1"),
            ("relations", again, " 2"),
            ("relations", again, " 3"),
            ("relations", again, " 6"),
            ("load", again, " 0"),
            ("load", again, " 1"),
            ("close", again, " 88"),
            ("close", again, " f8"),
            ("close", again, " 08"),
            ("list", pattern, " 0 777777777777"),
            ("clist", pattern, " 2 777777777777"),
            ("list", pattern, " 0 77"),
            ("list", "T0 a0 a1 r1 r0, T1 a1 a0 r0 r1", " 0 777777777777"),
            ("witness", pattern, " 0003000a 777777777777"),
            ("witness", pattern, " 0004000a 777777777777"),
            ("cverdict", pattern, " 000a0004"),
            ("verdict", pattern, " 0001000a"),
            ("schedule", pattern, " 0003000a 000100020009"),
            ("schedule", pattern, " 0003000a 000200010009"),
            ("schedule", pattern, " 0003000a 00010009"),
        ]);
        assert_eq!((reentry.recordings, reentry.greatest_depth), (19, 2));
        assert_eq!((reentry.relations, reentry.loads, reentry.closures), (2, 1, 1));
        assert_eq!((reentry.deadlocks, reentry.witnesses, reentry.schedules), (2, 1, [1, 1]));
        assert_eq!(reentry.refused_patterns, 2);
    }

    #[test]
    fn crossed_releases_are_counted() {
        let reentry = counted(&[
            ("check", "T0 a0 a1 a0 a1 r0 r1 r1 r0", ""),
            ("check", "T0 a0 a1 a0 a1 r1 r0 r1 r0", ""),
            ("check", "T0 a0 a0 a1 r0 r1 r0", ""),
            ("check", "T0 a0 a0, T1 a1 a1, T0 r0, T1 r1", ""),
        ]);
        assert_eq!((reentry.recordings, reentry.crossed), (4, 1));
    }

    #[test]
    fn refusals_are_counted() {
        let reentry = counted(&[
            ("check", "T0 a0 a0, T1 a0", ""),
            ("clist", "T0 a0 a0 a0 r0, T1 a0", " 0 -"),
            ("check", "T0 a0 a0 r0, T1 a0", ""),
            ("check", "T0 a0, T1 a0", ""),
            ("check", "T0 a0 a0 r0 r0 a0, T1 a0", ""),
            ("check", "T0 a0 a0 r0 r0 r0", ""),
            ("check", "T0 a0 a0 r0 r0, T1 r0", ""),
            ("check", "T0 a0 a0, T1 r0", ""),
            ("check", "T0 a0 r0 r0", ""),
        ]);
        assert_eq!((reentry.refused_deep, reentry.refused_after_inner, reentry.refused_beyond), (2, 1, 1));
        assert_eq!((reentry.recordings, reentry.greatest_depth), (0, 0));
    }
}
