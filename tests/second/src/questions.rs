//! The questions that are put event by event: 4 to 7, 15 and 16.

use crate::locks::Locks;
use crate::recording::{Event, Operation, Refusal, LOCKS, VARIABLES};
use crate::tasks::Tasks;

/// What these questions look at: locks, tasks and written variables at a point of a recording.
#[derive(Clone)]
pub struct Questions {
    locks: Locks,
    tasks: Tasks,
    written: [bool; VARIABLES],
}

impl Questions {
    /// Before the first event.
    pub fn at_first() -> Questions {
        let (locks, tasks) = (Locks::all_free(), Tasks::without_events());
        Questions { locks, tasks, written: [false; VARIABLES] }
    }

    /// After these events, none of which is refused.
    pub fn after(events: &[Event]) -> Questions {
        let mut questions = Questions::at_first();
        events.iter().for_each(|&event| questions.pass(event));
        questions
    }

    /// The first of these questions that is answered "no" for this event; 02, job 9: "Question 5 is "no" only
    /// where another task holds the lock"; job 1: "Question 4 now takes objects up to 79" and "for each event
    /// 15 and then 16 follow question 7".
    pub fn first_no(&self, event: Event) -> Option<u64> {
        let Event { operation, task, object } = event;
        match operation {
            Operation::Acquire | Operation::Release if object >= LOCKS => Some(4),
            Operation::Acquire if self.locks.is_held_by_another(object, task) => Some(5),
            Operation::Release if self.locks.holder(object) != Some(task) => Some(6),
            Operation::Read if !self.written[object] => Some(7),
            _ => self.tasks.first_no(event),
        }
    }

    /// After one more event, which no question refuses.
    pub fn pass(&mut self, event: Event) {
        self.locks.pass(event);
        self.tasks.pass(event);
        if event.operation == Operation::Write {
            self.written[event.object] = true;
        }
    }
}

/// 01: "Then event by event, the earliest failing event deciding".
pub fn ask_event_by_event(events: &[Event]) -> Result<(), Refusal> {
    let mut questions = Questions::at_first();
    for (index, &event) in events.iter().enumerate() {
        if let Some(number) = questions.first_no(event) {
            return Err(Refusal { number, event: index as u64 + 1 });
        }
        questions.pass(event);
    }
    Ok(())
}
