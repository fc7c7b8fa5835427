//! What the refusals show of starts and joins: 02, job 1.

use crate::protocol::numbers_in;
use crate::recording::{Event, Operation, LOCKS, TASKS, VARIABLES};
use crate::tally::Tally;
use crate::tasks::Tasks;

/// Refusals at a start or a join, at an event of a joined task, or for an object that is no task; the reasons
/// for 15 are counted where there is no other one.
const REFUSALS: &[&str] = &[
    "15 own",
    "15 started",
    "15 joined",
    "15 with events",
    "15 by a joined task",
    "15 of a joined task by itself",
    "16 own",
    "16 of a read",
    "16 of a write",
    "16 of an acquire",
    "16 of a release",
    "16 of a start",
    "16 of a join",
    "4 of an acquire",
    "4 of a release",
    "4 at object 80",
    "4 at object 1023",
    "4 by a joined task",
    "5 by a joined task",
    "6 by a joined task",
    "7 by a joined task",
    "10 for a start",
    "10 for a join",
];

/// Counts of what occurred.
pub struct Refused(Tally);

impl Default for Refused {
    fn default() -> Refused {
        Refused(Tally::new(REFUSALS))
    }
}

impl Refused {
    /// Counts the refusal of the last event with this number, which is one of 4 to 7, 15 and 16.
    pub fn count_event(&mut self, number: u64, events: &[Event]) {
        let Some((&refused, earlier)) = events.split_last() else {
            return;
        };
        let tasks = Tasks::after(earlier);
        match number {
            4 => self.count_unknown(refused),
            15 => self.count_fork(refused, &tasks),
            16 => self.count_over(refused, &tasks),
            _ => {}
        }
        if number != 16 && tasks.is_joined(refused.task) {
            self.0.add(&format!("{number} by a joined task"), 1);
        }
    }

    /// Counts an acquire or release whose object is neither a lock nor a task.
    fn count_unknown(&mut self, refused: Event) {
        let is_acquire = refused.operation == Operation::Acquire;
        self.0.add(if is_acquire { "4 of an acquire" } else { "4 of a release" }, 1);
        self.0.add_if("4 at object 80", refused.object == LOCKS + TASKS);
        self.0.add_if("4 at object 1023", refused.object == VARIABLES - 1);
    }

    /// Counts a refused start.
    fn count_fork(&mut self, fork: Event, tasks: &Tasks) {
        let own = fork.object == fork.task;
        let reasons = [
            ("15 own", own),
            ("15 started", tasks.is_started(fork.object)),
            ("15 joined", tasks.is_joined(fork.object)),
            ("15 with events", tasks.has_events(fork.object)),
        ];
        let given: Vec<&str> =
            reasons.into_iter().filter(|&(_, holds)| holds).map(|(name, _)| name).collect();
        if let [only] = given[..] {
            self.0.add(only, 1);
        }
        self.0.add_if("15 of a joined task by itself", own && tasks.is_joined(fork.task));
    }

    /// Counts a join of the own task, or an event of a task already joined.
    fn count_over(&mut self, refused: Event, tasks: &Tasks) {
        let name = match refused.operation {
            _ if !tasks.is_joined(refused.task) => "16 own",
            Operation::Read => "16 of a read",
            Operation::Write => "16 of a write",
            Operation::Acquire => "16 of an acquire",
            Operation::Release => "16 of a release",
            Operation::Fork => "16 of a start",
            Operation::Join => "16 of a join",
        };
        self.0.add(name, 1);
    }

    /// Counts a refused pattern that has a start or a join.
    pub fn count_pattern(&mut self, pattern: &str, events: &[Event]) {
        let numbers = numbers_in(pattern);
        let named = |number: usize| number.checked_sub(1).and_then(|index| events.get(index));
        let has = |wanted: Operation| {
            numbers.iter().any(|&number| named(number).is_some_and(|event| event.operation == wanted))
        };
        self.0.add_if("10 for a start", has(Operation::Fork));
        self.0.add_if("10 for a join", has(Operation::Join));
    }

    /// The counts as text.
    pub fn text(&self) -> String {
        self.0.text()
    }
}

#[cfg(test)]
mod tests {
    use super::*;
    use crate::calls::check;
    use crate::protocol::events_of;
    use crate::protocol::hexadecimal;
    use crate::rows::row;

    /// The names under which the refusal of a recording in 01's notation is counted.
    fn names(text: &str) -> Vec<&'static str> {
        let mut refused = Refused::default();
        let refusal = check(&row(text)).expect_err("a refusal");
        let events = events_of(&hexadecimal(&row(text))).unwrap();
        refused.count_event(refusal.number, &events[..refusal.event as usize]);
        refused.0.occurred().into_iter().map(|(name, _)| name).collect()
    }

    #[test]
    fn starts_are_counted_by_their_only_reason() {
        assert_eq!(names("T0 s0"), ["15 own"]);
        assert_eq!(names("T0 s1 s1"), ["15 started"]);
        assert_eq!(names("T0 j1 s1"), ["15 joined"]);
        assert_eq!(names("T1 W0, T0 s1"), ["15 with events"]);
        assert_eq!(names("T0 W0 s0"), [""; 0]);
        assert_eq!(names("T0 s1, T1 W0, T0 s1"), [""; 0]);
        assert_eq!(names("T0 s1 j1 s1"), [""; 0]);
        assert_eq!(names("T0 j1 s2, T1 s2"), ["15 started", "15 by a joined task"]);
        assert_eq!(names("T0 j1, T1 s1"), ["15 by a joined task", "15 of a joined task by itself"]);
    }

    #[test]
    fn events_of_joined_tasks_are_counted() {
        assert_eq!(names("T0 j0"), ["16 own"]);
        assert_eq!(names("T0 W0 j1, T1 R0"), ["16 of a read"]);
        assert_eq!(names("T0 j1, T1 W0"), ["16 of a write"]);
        assert_eq!(names("T0 j1, T1 a0"), ["16 of an acquire"]);
        assert_eq!(names("T1 a0, T0 j1, T1 r0"), ["16 of a release"]);
        assert_eq!(names("T0 j1, T1 s2"), ["16 of a start"]);
        assert_eq!(names("T0 j1, T1 j2"), ["16 of a join"]);
        assert_eq!(names("T0 j1, T1 j1"), ["16 of a join"]);
        assert_eq!(names("T0 j1 a0, T1 a0"), ["5 by a joined task"]);
        assert_eq!(names("T0 j1, T1 r0"), ["6 by a joined task"]);
        assert_eq!(names("T0 j1, T1 R0"), ["7 by a joined task"]);
        assert_eq!(names("T0 a0, T1 a0"), [""; 0]);
    }

    #[test]
    fn unknown_objects_are_counted() {
        assert_eq!(names("T0 a80"), ["4 of an acquire", "4 at object 80"]);
        assert_eq!(names("T0 r1023"), ["4 of a release", "4 at object 1023"]);
        assert_eq!(names("T0 j1, T1 a81"), ["4 of an acquire", "4 by a joined task"]);
    }

    #[test]
    fn patterns_are_counted() {
        let events = events_of(&hexadecimal(&row("T0 a0 s2 j2 r0, T1 a2 a0"))).unwrap();
        let mut refused = Refused::default();
        for pattern in ["00020006", "00030006", "00010006", "0000ffff", "-"] {
            refused.count_pattern(pattern, &events);
        }
        assert_eq!(refused.0.occurred(), [("10 for a start", 1), ("10 for a join", 1)]);
    }
}
