//! The record kept for each task, which questions 15 and 16 ask about, and the tasks' starts: 02, job 1.

use crate::recording::{Event, Operation, TASKS};

/// What the events up to a point of a recording say of a task.
#[derive(Clone, Copy, Debug, Default)]
struct Record {
    started: bool,
    joined: bool,
    has_events: bool,
}

/// The records of all tasks at a point of a recording.
#[derive(Clone, Debug)]
pub struct Tasks([Record; TASKS]);

impl Tasks {
    /// The records before the first event.
    pub fn without_events() -> Tasks {
        Tasks([Record::default(); TASKS])
    }

    /// The records after these events.
    pub fn after(events: &[Event]) -> Tasks {
        let mut tasks = Tasks::without_events();
        events.iter().for_each(|&event| tasks.pass(event));
        tasks
    }

    /// "already started"
    pub fn is_started(&self, task: usize) -> bool {
        self.0[task].started
    }

    /// "already joined"
    pub fn is_joined(&self, task: usize) -> bool {
        self.0[task].joined
    }

    /// "with earlier events"
    pub fn has_events(&self, task: usize) -> bool {
        self.0[task].has_events
    }

    /// The first of questions 15 and 16 that is answered "no" for this event: "for each event 15 and then 16
    /// follow question 7".
    pub fn first_no(&self, event: Event) -> Option<u64> {
        match event.operation {
            Operation::Fork if self.refuse_fork(event) => Some(15),
            _ if self.refuse_as_over(event) => Some(16),
            _ => None,
        }
    }

    /// "Number 15 answers a start of the own task or of one already started, already joined or with earlier
    /// events"
    fn refuse_fork(&self, fork: Event) -> bool {
        let Record { started, joined, has_events } = self.0[fork.object];
        fork.object == fork.task || started || joined || has_events
    }

    /// "16 a join of the own task or an event of a task already joined"
    fn refuse_as_over(&self, event: Event) -> bool {
        let joins_itself = event.operation == Operation::Join && event.object == event.task;
        joins_itself || self.is_joined(event.task)
    }

    /// The records after one more event.
    pub fn pass(&mut self, event: Event) {
        self.0[event.task].has_events = true;
        match event.operation {
            Operation::Fork => self.0[event.object].started = true,
            Operation::Join => self.0[event.object].joined = true,
            Operation::Read | Operation::Write | Operation::Acquire | Operation::Release => {}
        }
    }
}

/// For each task of a well-formed recording the number of its start, or 0; question 15 permits one at most.
pub fn forks(events: &[Event]) -> [usize; TASKS] {
    let mut forks = [0; TASKS];
    for (index, event) in events.iter().enumerate() {
        if event.operation == Operation::Fork {
            forks[event.object] = index + 1;
        }
    }
    forks
}

#[cfg(test)]
mod tests {
    use super::*;
    use crate::draws::{any_event, any_operation, Ranges};
    use crate::random::Random;

    /// Questions 15 and 16 as 02 words them, over all earlier events.
    fn by_the_words(earlier: &[Event], event: Event) -> Option<u64> {
        let names = |operation, task| earlier.iter().any(|e| e.operation == operation && e.object == task);
        let has_events = |task| earlier.iter().any(|e| e.task == task);
        let Event { operation, task, object } = event;
        let begun = names(Operation::Fork, object) || names(Operation::Join, object) || has_events(object);
        match operation {
            Operation::Fork if object == task || begun => Some(15),
            Operation::Join if object == task => Some(16),
            _ if names(Operation::Join, task) => Some(16),
            _ => None,
        }
    }

    #[test]
    fn records_answer_questions_15_and_16() {
        let random = &mut Random::new(3);
        let ranges = Ranges { tasks: 5, locks: 2, variables: 2 };
        let mut answers = Vec::new();
        for _ in 0..500 {
            let mut events = Vec::new();
            for _ in 0..20 {
                let operation = any_operation(random);
                let event = any_event(random, operation, ranges);
                let answer = Tasks::after(&events).first_no(event);
                assert_eq!(answer, by_the_words(&events, event));
                answers.push(answer);
                if answer.is_none() {
                    events.push(event);
                }
            }
        }
        for (number, least) in [(None, 1000), (Some(15), 100), (Some(16), 100)] {
            assert!(answers.iter().filter(|&&answer| answer == number).count() > least);
        }
    }
}
