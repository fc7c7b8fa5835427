//! The recording of 01: its events and questions 1 to 3; those event by event are in `questions`.

use crate::locks::outer_events;
use crate::questions::ask_event_by_event;
use crate::relations::{relations_of, Relations};
use crate::tasks::forks;

/// How many locks there are: "a lock (0 to 63)".
pub const LOCKS: usize = 64;
/// How many tasks there are: "task in 4 bits".
pub const TASKS: usize = 16;
/// How many variables there are: "a variable (0 to 1,023)".
pub const VARIABLES: usize = 1024;

/// A question's "no": "A refusal returns its number and the event that caused it".
#[derive(Clone, Copy, Debug, PartialEq, Eq)]
pub struct Refusal {
    pub number: u64,
    pub event: u64,
}

impl Refusal {
    /// 01: "the event that caused it (0 where the question isn't put event by event)".
    pub fn without_event(number: u64) -> Refusal {
        Refusal { number, event: 0 }
    }
}

/// What an event does; 02, job 1: "An acquire record with object 64 to 79 is a start of task object − 64; a
/// release record with such an object is a join of that task."
#[derive(Clone, Copy, Debug, PartialEq, Eq)]
pub enum Operation {
    Read,
    Write,
    Acquire,
    Release,
    Fork,
    Join,
}

/// An event of a recording; the object of a start (`Fork`) or a join is the task that it names.
#[derive(Clone, Copy, Debug, PartialEq, Eq)]
pub struct Event {
    pub operation: Operation,
    pub task: usize,
    pub object: usize,
}

impl Event {
    /// 01: "An event is: operation in 2 bits (0 read, 1 write, 2 acquire, 3 release), task in
    /// 4 bits, object in 10 bits."; 02, job 1: "object 64 to 79 is a start of task object − 64".
    pub fn unpack(word: usize) -> Event {
        let (task, object) = ((word >> 10) & 15, word & 1023);
        let names_task = (LOCKS..LOCKS + TASKS).contains(&object);
        match word >> 14 {
            0 => Event { operation: Operation::Read, task, object },
            1 => Event { operation: Operation::Write, task, object },
            2 if names_task => Event::fork(task, object - LOCKS),
            2 => Event::acquire(task, object),
            _ if names_task => Event::join(task, object - LOCKS),
            _ => Event::release(task, object),
        }
    }

    /// The inverse of `unpack`, 01: "All fields are unsigned and bit-packed, most significant bit
    /// first."
    pub fn pack(self) -> usize {
        let (code, object) = match self.operation {
            Operation::Read => (0, self.object),
            Operation::Write => (1, self.object),
            Operation::Acquire => (2, self.object),
            Operation::Release => (3, self.object),
            Operation::Fork => (2, LOCKS + self.object),
            Operation::Join => (3, LOCKS + self.object),
        };
        code << 14 | self.task << 10 | object
    }

    /// 01: "T0 a1 means task 0 acquires lock 1".
    pub fn acquire(task: usize, lock: usize) -> Event {
        Event { operation: Operation::Acquire, task, object: lock }
    }

    /// 01: "r releases".
    pub fn release(task: usize, lock: usize) -> Event {
        Event { operation: Operation::Release, task, object: lock }
    }

    /// 02, job 1: "a start of task object − 64".
    pub fn fork(task: usize, started: usize) -> Event {
        Event { operation: Operation::Fork, task, object: started }
    }

    /// 02, job 1: "a join of that task".
    pub fn join(task: usize, joined: usize) -> Event {
        Event { operation: Operation::Join, task, object: joined }
    }

    /// 01: "a lock (0 to 63) for acquire and release, a variable (0 to 1,023) for read and write"; 02, job 1,
    /// of starts and joins: "Neither touches a lock".
    pub fn uses_lock(self) -> bool {
        self.operation == Operation::Acquire || self.operation == Operation::Release
    }

    /// Whether it is a start or a join, which name a task.
    pub fn names_task(self) -> bool {
        self.operation == Operation::Fork || self.operation == Operation::Join
    }
}

/// 01: "Every two-byte number, in and out, has its high byte first."; an odd last byte is left out.
pub fn numbers_from(bytes: &[u8]) -> Vec<usize> {
    let value = |pair: &[u8]| usize::from(pair[0]) * 256 + usize::from(pair[1]);
    bytes.chunks_exact(2).map(value).collect()
}

/// 01: "Every two-byte number, in and out, has its high byte first."
pub fn bytes_from(numbers: &[usize]) -> Vec<u8> {
    numbers.iter().flat_map(|&number| [(number >> 8) as u8, number as u8]).collect()
}

/// The bytes of a recording, 01: "The header is two bytes: format in 4 bits (value 1), event count
/// n in 12 bits (0 to 4,095). Then n events of two bytes".
pub fn encode(events: &[Event]) -> Vec<u8> {
    let mut words = vec![1 << 12 | events.len()];
    words.extend(events.iter().map(|event| event.pack()));
    bytes_from(&words)
}

/// A well-formed recording with the relations of its events.
pub struct Recording {
    events: Vec<Event>,
    outer: Vec<bool>,
    /// For each task its start, or 0.
    forks: [usize; TASKS],
    relations: Vec<Relations>,
}

impl Recording {
    /// 01: "A recording without a "no" up to here is well-formed."
    pub fn read(bytes: &[u8]) -> Result<Recording, Refusal> {
        let events = ask_about_bytes(bytes)?;
        ask_event_by_event(&events)?;
        let outer = outer_events(&events);
        let forks = forks(&events);
        let relations = relations_of(&events, &outer, &forks);
        Ok(Recording { events, outer, forks, relations })
    }

    /// 01: "event count n in 12 bits (0 to 4,095)".
    pub fn count(&self) -> usize {
        self.events.len()
    }

    /// 01: "Events are numbered from 1".
    pub fn event(&self, number: usize) -> Event {
        self.events[number - 1]
    }

    /// 01: "For one event number: the held locks [...]; the match; the writer; the predecessor."
    pub fn relations(&self, number: usize) -> &Relations {
        &self.relations[number - 1]
    }

    /// The task's start, if the recording has one.
    pub fn fork_of(&self, task: usize) -> Option<usize> {
        Some(self.forks[task]).filter(|&fork| fork != 0)
    }

    /// 01: "operation in 2 bits (0 read, 1 write, 2 acquire, 3 release)"; a start is no acquire.
    pub fn is_acquire(&self, number: usize) -> bool {
        self.event(number).operation == Operation::Acquire
    }

    /// 02, job 9: "Only the acquire from depth 0 [counts as acquire] in closure, match, schedules and
    /// patterns".
    pub fn is_outer_acquire(&self, number: usize) -> bool {
        self.is_acquire(number) && self.outer[number - 1]
    }

    /// An acquire or release that is not outer, 02, job 9: "inner ones have match 0 and follow task order
    /// only".
    pub fn is_inner(&self, number: usize) -> bool {
        self.event(number).uses_lock() && !self.outer[number - 1]
    }
}

/// Questions 1 to 3, then the events.
fn ask_about_bytes(bytes: &[u8]) -> Result<Vec<Event>, Refusal> {
    if bytes.len() < 2 {
        return Err(Refusal::without_event(1));
    }
    let header = numbers_from(&bytes[..2])[0];
    if header >> 12 != 1 {
        return Err(Refusal::without_event(2));
    }
    if bytes.len() != 2 + 2 * (header & 4095) {
        return Err(Refusal::without_event(3));
    }
    Ok(numbers_from(&bytes[2..]).into_iter().map(Event::unpack).collect())
}

#[cfg(test)]
mod tests {
    use super::*;

    #[test]
    fn records_are_unpacked_and_packed() {
        for word in 0..65_536 {
            let event = Event::unpack(word);
            let (code, task, object) = (word / 16_384, word / 1024 % 16, word % 1024);
            let expected = match (code, object) {
                (0, _) => Event { operation: Operation::Read, task, object },
                (1, _) => Event { operation: Operation::Write, task, object },
                (2, 64..=79) => Event { operation: Operation::Fork, task, object: object - 64 },
                (2, _) => Event { operation: Operation::Acquire, task, object },
                (_, 64..=79) => Event { operation: Operation::Join, task, object: object - 64 },
                (_, _) => Event { operation: Operation::Release, task, object },
            };
            assert_eq!((event, event.pack()), (expected, word));
        }
    }
}
