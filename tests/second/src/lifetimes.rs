//! What the requests and their answers show of starts and joins: 02, job 1; refusals are in `refused`, other
//! answers in `waiting`.

use crate::locks::Locks;
use crate::protocol::{events_of, Answer};
use crate::recording::{Event, Operation, LOCKS, TASKS};
use crate::refused::Refused;
use crate::tally::Tally;
use crate::tasks::Tasks;
use crate::waiting::Waiting;
use std::collections::BTreeSet;

/// Accepted recordings, by what they have.
const RECORDINGS: &[&str] = &[
    "accepted recordings with a start",
    "with a start of task 0",
    "with a start of task 15",
    "with three starts in a chain",
    "with a start at depth 1",
    "with a start at depth 2 or more",
    "with a started task without events",
    "with a join",
    "with a join of task 0",
    "with a join of task 15",
    "with a join at depth 1",
    "with a join at depth 2 or more",
    "with a join of a started task",
    "with a join of a started task without events",
    "with a join of a task never started",
    "with a join of a task without start or events",
    "with a second join",
];

/// Counts of what occurred.
pub struct Lifetimes {
    recordings: Tally,
    answers: Waiting,
    refusals: Refused,
}

impl Default for Lifetimes {
    fn default() -> Lifetimes {
        let (answers, refusals) = (Waiting::default(), Refused::default());
        Lifetimes { recordings: Tally::new(RECORDINGS), answers, refusals }
    }
}

impl Lifetimes {
    /// Counts what a request and its answer show.
    pub fn count(&mut self, request: &str, answer: &Answer) {
        let words: Vec<&str> = request.split(' ').collect();
        let events = words.get(1).and_then(|word| events_of(word)).unwrap_or_default();
        let refusal = answer.refusal;
        match refusal.number {
            1..=3 => {}
            4..=7 | 15 | 16 => self.refusals.count_event(refusal.number, &events[..refusal.event as usize]),
            _ if !events.iter().any(|event| event.names_task()) => {}
            number => {
                facts(&events).into_iter().for_each(|name| self.recordings.add(name, 1));
                match number {
                    0 => self.answers.count(&words, answer, &events),
                    10 => self.refusals.count_pattern(words[2], &events),
                    _ => {}
                }
            }
        }
    }

    /// The counts as three lines of text.
    pub fn text(&self) -> String {
        format!(
            "starts and joins: {}\nanswers with starts and joins: {}\nrefusals at starts and joins: {}",
            self.recordings.text(),
            self.answers.text(),
            self.refusals.text()
        )
    }
}

/// The names of what an accepted recording with starts or joins has.
fn facts(events: &[Event]) -> BTreeSet<&'static str> {
    let mut names = BTreeSet::new();
    let (mut locks, mut tasks) = (Locks::all_free(), Tasks::without_events());
    let mut starts_above = [0; TASKS];
    for &event in events {
        match event.operation {
            Operation::Fork => {
                starts_above[event.object] = starts_above[event.task] + 1;
                names.extend(fork_facts(event, &locks, starts_above[event.object]));
            }
            Operation::Join => names.extend(join_facts(event, &locks, &tasks)),
            _ => {}
        }
        locks.pass(event);
        tasks.pass(event);
    }
    if (0..TASKS).any(|task| tasks.is_started(task) && !tasks.has_events(task)) {
        names.insert("with a started task without events");
    }
    names
}

/// The names of what a start shows, which is the last of so many in a chain.
fn fork_facts(fork: Event, locks: &Locks, chain: usize) -> Vec<&'static str> {
    let depth = greatest_depth(locks, fork.task);
    let facts = [
        ("accepted recordings with a start", true),
        ("with a start of task 0", fork.object == 0),
        ("with a start of task 15", fork.object == 15),
        ("with three starts in a chain", chain == 3),
        ("with a start at depth 1", depth == 1),
        ("with a start at depth 2 or more", depth > 1),
    ];
    facts.into_iter().filter(|&(_, holds)| holds).map(|(name, _)| name).collect()
}

/// The names of what a join shows.
fn join_facts(join: Event, locks: &Locks, tasks: &Tasks) -> Vec<&'static str> {
    let depth = greatest_depth(locks, join.task);
    let (is_started, has_events) = (tasks.is_started(join.object), tasks.has_events(join.object));
    let facts = [
        ("with a join", true),
        ("with a join of task 0", join.object == 0),
        ("with a join of task 15", join.object == 15),
        ("with a join at depth 1", depth == 1),
        ("with a join at depth 2 or more", depth > 1),
        ("with a join of a started task", is_started && has_events),
        ("with a join of a started task without events", is_started && !has_events),
        ("with a join of a task never started", !is_started && has_events),
        ("with a join of a task without start or events", !is_started && !has_events),
        ("with a second join", tasks.is_joined(join.object)),
    ];
    facts.into_iter().filter(|&(_, holds)| holds).map(|(name, _)| name).collect()
}

/// The greatest depth of a lock that the task holds, or 0.
fn greatest_depth(locks: &Locks, task: usize) -> usize {
    let held = (0..LOCKS).filter(|&lock| locks.holder(lock) == Some(task));
    held.map(|lock| locks.depth(lock)).max().unwrap_or(0)
}

#[cfg(test)]
mod tests {
    use super::*;
    use crate::protocol::{answer, hexadecimal};
    use crate::rows::row;

    /// What a request about a recording in 01's notation shows of that recording.
    fn shown(text: &str) -> Vec<(&'static str, u64)> {
        let mut lifetimes = Lifetimes::default();
        let request = format!("check {}", hexadecimal(&row(text)));
        lifetimes.count(&request, &answer(&request).expect("a request"));
        lifetimes.recordings.occurred()
    }

    /// The names without the counts, each of which is 1.
    fn names(text: &str) -> Vec<&'static str> {
        let shown = shown(text);
        assert!(shown.iter().all(|&(_, count)| count == 1));
        shown.into_iter().map(|(name, _)| name).collect()
    }

    #[test]
    fn starts_are_counted() {
        let start = "accepted recordings with a start";
        assert_eq!(names("T0 s1, T1 W0"), [start]);
        assert_eq!(
            names("T1 s0 s15, T0 W0, T15 W0"),
            [start, "with a start of task 0", "with a start of task 15"]
        );
        assert_eq!(names("T0 s1, T1 s2, T2 s3, T3 W0"), [start, "with three starts in a chain"]);
        assert_eq!(names("T0 a0 s1, T1 W0"), [start, "with a start at depth 1"]);
        assert_eq!(names("T0 a0 a1 a1 r0 s1, T1 W0"), [start, "with a start at depth 2 or more"]);
        assert_eq!(names("T2 a0, T0 s1, T1 W0"), [start]);
        assert_eq!(names("T0 s1 s2, T1 W0"), [start, "with a started task without events"]);
    }

    #[test]
    fn joins_are_counted() {
        let (join, unstarted) = ("with a join", "with a join of a task never started");
        let start = "accepted recordings with a start";
        assert_eq!(names("T1 W0, T2 j1"), [join, unstarted]);
        assert_eq!(names("T0 W0, T2 j0"), [join, "with a join of task 0", unstarted]);
        assert_eq!(names("T15 W0, T2 j15"), [join, "with a join of task 15", unstarted]);
        assert_eq!(names("T1 W0, T2 a0 j1"), [join, "with a join at depth 1", unstarted]);
        assert_eq!(names("T1 W0, T2 a0 a0 j1"), [join, "with a join at depth 2 or more", unstarted]);
        assert_eq!(names("T2 s1, T1 W0, T2 j1"), [start, join, "with a join of a started task"]);
        assert_eq!(names("T2 j1"), [join, "with a join of a task without start or events"]);
        assert_eq!(names("T1 W0, T2 j1 j1"), [join, unstarted, "with a second join"]);
        let without_events = "with a started task without events";
        let joined = "with a join of a started task without events";
        assert_eq!(names("T2 s1 j1"), [start, without_events, join, joined]);
    }

    #[test]
    fn other_recordings_are_not_counted() {
        for text in ["T0 a0 a1 r1 r0", "T0 s0", "T0 s1 s1", "T0 j1, T1 W0", "T0 s1, T1 a80", "T0 s1, T1 R0"] {
            assert_eq!(shown(text), []);
        }
    }
}
