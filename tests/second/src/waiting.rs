//! What the answers to requests that are not refused show of starts and joins: 02, job 1.

use crate::closure::set_has;
use crate::faults::{fault_at_fork, fault_at_join};
use crate::locks::Locks;
use crate::protocol::{bytes, entries_of, number, numbers_in, Answer};
use crate::recording::{Event, Operation};
use crate::tally::Tally;
use crate::tasks::Tasks;
use crate::without::answer_without;

/// Answers, by what they show. A start or a join widens, shortens, keeps out or refuses where the answer
/// would be another one if the recording had writes in place of all its starts or all its joins.
const ANSWERS: &[&str] = &[
    "starts asked for",
    "joins asked for",
    "first events of started tasks asked for",
    "loads of locks held at a start or join",
    "closures that starts widen",
    "closures that joins widen",
    "closures that joins widen by a start",
    "deadlocks listed",
    "listings that starts shorten",
    "listings that joins shorten",
    "patterns that starts keep out",
    "patterns that joins keep out",
    "witnesses with a start",
    "witnesses with a join",
    "valid schedules with a start",
    "valid schedules with a join",
    "schedules with a start missing",
    "schedules with a start too late",
    "schedules with an event of a join missing",
    "schedules with a join too early",
    "schedules with a join before its task's start",
];

/// Counts of what occurred.
pub struct Waiting(Tally);

impl Default for Waiting {
    fn default() -> Waiting {
        Waiting(Tally::new(ANSWERS))
    }
}

impl Waiting {
    /// Counts what the answer to the request of these words shows, whose recording has these events.
    pub fn count(&mut self, words: &[&str], answer: &Answer, events: &[Event]) {
        let answered: Vec<&str> = answer.line.split(' ').collect();
        let changes = |wanted| answer_without(words, events, wanted).is_some_and(|line| line != answer.line);
        match (words, &answered[..]) {
            (["relations", _, asked], _) => self.count_relations(number(asked).unwrap_or(0) as usize, events),
            (["load", _, lock], _) => {
                let held = number(lock).is_some_and(|lock| is_held_at_fork_or_join(events, lock as usize));
                self.0.add_if("loads of locks held at a start or join", held);
            }
            (["close", ..], _) => {
                self.0.add_if("closures that starts widen", changes(Operation::Fork));
                self.0.add_if("closures that joins widen", changes(Operation::Join));
                let other = answer_without(words, events, Operation::Join);
                let widened = other.is_some_and(|line| has_start_without_events(events, &answer.line, &line));
                self.0.add_if("closures that joins widen by a start", widened);
            }
            (["list" | "clist", ..], _) => {
                let entries = entries_of(words, answer).map_or(0, |(_, entries)| entries.len());
                self.0.add("deadlocks listed", entries as u64);
                self.0.add_if("listings that starts shorten", changes(Operation::Fork));
                self.0.add_if("listings that joins shorten", changes(Operation::Join));
            }
            (["witness", ..], [_, _, "1", written, lent]) => {
                let digits = 2 * number(written).unwrap_or(0) as usize;
                self.0.add_if("witnesses with a start", lists(&lent[..digits], events, Operation::Fork));
                self.0.add_if("witnesses with a join", lists(&lent[..digits], events, Operation::Join));
            }
            (["verdict" | "witness", ..], [_, _, "0", ..]) | (["cverdict", ..], ["0"]) => {
                self.0.add_if("patterns that starts keep out", changes(Operation::Fork));
                self.0.add_if("patterns that joins keep out", changes(Operation::Join));
            }
            (["schedule", _, _, list], [_, _, "1"]) => {
                self.0.add_if("valid schedules with a start", lists(list, events, Operation::Fork));
                self.0.add_if("valid schedules with a join", lists(list, events, Operation::Join));
            }
            (["schedule", _, _, list], _) => {
                let refuses = [changes(Operation::Fork), changes(Operation::Join)];
                self.count_refused_schedule(&numbers_in(list), events, refuses);
            }
            _ => {}
        }
    }

    /// Counts the relations of one event.
    fn count_relations(&mut self, asked: usize, events: &[Event]) {
        let event = events[asked - 1];
        let tasks = Tasks::after(&events[..asked - 1]);
        let is_first = tasks.is_started(event.task) && !tasks.has_events(event.task);
        self.0.add_if("starts asked for", event.operation == Operation::Fork);
        self.0.add_if("joins asked for", event.operation == Operation::Join);
        self.0.add_if("first events of started tasks asked for", is_first);
    }

    /// Counts a list that the checker said no to, because of starts alone or of joins alone.
    fn count_refused_schedule(&mut self, list: &[usize], events: &[Event], [by_fork, by_join]: [bool; 2]) {
        for (number, event) in (1..).zip(events) {
            let name = match event.operation {
                Operation::Fork if by_fork => fault_at_fork(list, events, number),
                Operation::Join if by_join => fault_at_join(list, events, number),
                _ => None,
            };
            name.into_iter().for_each(|name| self.0.add(name, 1));
        }
    }

    /// The counts as text.
    pub fn text(&self) -> String {
        self.0.text()
    }
}

/// Whether the set at the end of the first answer has the start of a task without events that the other has
/// not.
fn has_start_without_events(events: &[Event], line: &str, other: &str) -> bool {
    let set = |line: &str| line.split(' ').next_back().and_then(bytes).unwrap_or_default();
    let (set, other) = (set(line), set(other));
    let is_added = |number: &usize| set_has(&set, *number) && !set_has(&other, *number);
    (1..=events.len()).filter(is_added).any(|number| {
        let Event { operation, object, .. } = events[number - 1];
        operation == Operation::Fork && !events.iter().any(|event| event.task == object)
    })
}

/// Whether the word lists an event of this operation.
fn lists(word: &str, events: &[Event], wanted: Operation) -> bool {
    numbers_in(word).iter().any(|&number| events[number - 1].operation == wanted)
}

/// Whether some task holds the lock right before a start or a join.
fn is_held_at_fork_or_join(events: &[Event], lock: usize) -> bool {
    let mut locks = Locks::all_free();
    events.iter().any(|&event| {
        let is_held = locks.holder(lock).is_some();
        locks.pass(event);
        is_held && event.names_task()
    })
}

#[cfg(test)]
mod tests {
    use super::*;
    use crate::protocol::{answer, events_of, hexadecimal};
    use crate::rows::row;

    /// The counts of one request about a recording in 01's notation.
    fn counted(call: &str, text: &str, arguments: &str) -> Vec<(&'static str, u64)> {
        let mut waiting = Waiting::default();
        let request = format!("{call} {} {arguments}", hexadecimal(&row(text)));
        let words: Vec<&str> = request.split(' ').collect();
        let answer = answer(&request).expect("a request");
        assert_eq!(answer.refusal.number, 0);
        waiting.count(&words, &answer, &events_of(words[1]).unwrap());
        waiting.0.occurred()
    }

    /// Row A between starts and joins, started between, joined between, and after a join of another task.
    const FORKED: &str = "T0 s1 s2, T1 a0 a1 r1 r0, T2 a1 a0 r0 r1, T0 j1 j2";
    const FORK_BETWEEN: &str = "T0 a0 a1 r1 r0 s1, T1 a1 a0 r0 r1";
    const JOIN_BETWEEN: &str = "T0 a0 a1 r1 r0, T1 j0 a1 a0 r0 r1";
    const AFTER_JOIN: &str = "T3 W0 W0, T0 s1 j3 s2, T1 a0 a1 r1 r0, T2 a1 a0 r0 r1";
    const ROOM: &str = "77777777777777777777777777777777";

    #[test]
    fn relations_and_loads_are_counted() {
        assert_eq!(counted("relations", FORKED, "1"), [("starts asked for", 1)]);
        assert_eq!(counted("relations", FORKED, "11"), [("joins asked for", 1)]);
        assert_eq!(counted("relations", FORKED, "3"), [("first events of started tasks asked for", 1)]);
        assert_eq!(counted("relations", FORKED, "4"), []);
        let load = "loads of locks held at a start or join";
        assert_eq!(counted("load", "T0 a0 s1 r0", "0"), [(load, 1)]);
        assert_eq!(counted("load", "T0 a0 r0 s1", "0"), []);
    }

    #[test]
    fn closures_and_listings_are_counted() {
        assert_eq!(counted("close", "T0 s1, T1 W0", "40"), [("closures that starts widen", 1)]);
        assert_eq!(counted("close", "T1 W0, T0 j1", "40"), [("closures that joins widen", 1)]);
        assert_eq!(counted("close", "T1 W0, T0 j1", "c0"), []);
        let by_start = counted("close", "T2 s1, T0 j1", "40");
        assert!(by_start.contains(&("closures that joins widen by a start", 1)));
        assert_eq!(counted("list", FORKED, &format!("0 {ROOM}")), [("deadlocks listed", 1)]);
        assert_eq!(
            counted("list", FORK_BETWEEN, &format!("0 {ROOM}")),
            [("listings that starts shorten", 1)]
        );
        assert_eq!(
            counted("clist", JOIN_BETWEEN, &format!("0 {ROOM}")),
            [("listings that joins shorten", 1)]
        );
    }

    #[test]
    fn verdicts_and_witnesses_are_counted() {
        assert_eq!(counted("verdict", FORK_BETWEEN, "00020007"), [("patterns that starts keep out", 1)]);
        assert_eq!(counted("cverdict", JOIN_BETWEEN, "00020007"), [("patterns that joins keep out", 1)]);
        let witness = |text, pattern| counted("witness", text, &format!("{pattern} {ROOM}"));
        assert_eq!(witness(JOIN_BETWEEN, "00020007"), [("patterns that joins keep out", 1)]);
        assert_eq!(witness(FORKED, "00040008"), [("witnesses with a start", 1)]);
        let both = [("witnesses with a start", 1), ("witnesses with a join", 1)];
        assert_eq!(witness(AFTER_JOIN, "0007000b"), both);
        assert_eq!(counted("verdict", FORKED, "00040008"), []);
    }

    #[test]
    fn schedules_are_counted() {
        let forked = |list: &str| counted("schedule", FORKED, &format!("00040008 {list}"));
        assert_eq!(forked("0001000200030007"), [("valid schedules with a start", 1)]);
        assert_eq!(forked("000100030007"), [("schedules with a start missing", 1)]);
        assert_eq!(forked("0003000100020007"), [("schedules with a start too late", 1)]);
        assert_eq!(forked("0001000200070004"), []);
        assert_eq!(forked("00010002000300ff"), []);
        let joined = |list: &str| counted("schedule", AFTER_JOIN, &format!("0007000b {list}"));
        let both = [("valid schedules with a start", 1), ("valid schedules with a join", 1)];
        assert_eq!(joined("000100020003000400050006000a"), both);
        let (missing, early) =
            ("schedules with an event of a join missing", "schedules with a join too early");
        assert_eq!(joined("00010003000400050006000a"), [(missing, 1)]);
        assert_eq!(joined("0003000400050006000a"), [(missing, 1)]);
        assert_eq!(joined("000100030004000200050006000a"), [(early, 1)]);
        let after_start = "T3 s4, T0 s1 j4 s2, T1 a0 a1 r1 r0, T2 a1 a0 r0 r1";
        for list in ["000200030001000400050009", "00020003000400050009"] {
            let counts = counted("schedule", after_start, &format!("0006000a {list}"));
            assert_eq!(counts, [("schedules with a join before its task's start", 1)]);
        }
    }
}
