//! Random recordings in which tasks take locks again that they hold.

use crate::locks::outer_events;
use crate::random::Random;
use crate::recording::{Event, Operation};

/// A task's hold of a lock, from its outer acquire to its outer release or the recording's end.
#[derive(Clone, Copy)]
struct Hold {
    task: usize,
    lock: usize,
    /// The first and the last event that inner events can be put before, counted from 0.
    first: usize,
    last: usize,
    released: bool,
}

impl Hold {
    fn acquire(self) -> Event {
        Event::acquire(self.task, self.lock)
    }

    fn release(self) -> Event {
        Event::release(self.task, self.lock)
    }
}

/// The holds of a well-formed recording, in the order of their outer acquires.
fn holds(events: &[Event]) -> Vec<Hold> {
    let outer = outer_events(events);
    let is_outer_acquire = |&at: &usize| outer[at] && events[at].operation == Operation::Acquire;
    let hold_from = |at: usize| {
        let Event { task, object: lock, .. } = events[at];
        let first = at + 1;
        let release = (first..events.len()).find(|&e| outer[e] && events[e] == Event::release(task, lock));
        Hold { task, lock, first, last: release.unwrap_or(events.len()), released: release.is_some() }
    };
    (0..events.len()).filter(is_outer_acquire).map(hold_from).collect()
}

/// A recording and the inner events that are put before each of its events and after the last.
struct Insertion<'a> {
    events: &'a [Event],
    holds: Vec<Hold>,
    before: Vec<Vec<Event>>,
    /// How many more events can be put in.
    room: usize,
}

impl<'a> Insertion<'a> {
    fn new(events: &'a [Event], limit: usize) -> Insertion<'a> {
        let before = vec![Vec::new(); events.len() + 1];
        Insertion { events, holds: holds(events), before, room: limit.saturating_sub(events.len()) }
    }

    /// Puts an inner acquire and an inner release into a hold up to this event of it.
    fn put_pair(&mut self, random: &mut Random, hold: Hold, last: usize) {
        let at = random.between(hold.first, last);
        self.before[at].push(hold.acquire());
        self.before[random.between(at, last)].push(hold.release());
        self.room -= 2;
    }

    /// Puts so many inner acquires into a hold before some point of it, and so many inner releases after it.
    fn put_tower(&mut self, random: &mut Random, hold: Hold, acquires: usize, releases: usize) {
        let top = random.between(hold.first, hold.last);
        for _ in 0..acquires {
            self.before[random.between(hold.first, top)].push(hold.acquire());
        }
        for _ in 0..releases {
            self.before[random.between(top, hold.last)].push(hold.release());
        }
        self.room -= acquires + releases;
    }

    fn into_events(self) -> Vec<Event> {
        let mut all = Vec::new();
        for (index, inserted) in self.before.into_iter().enumerate() {
            all.extend(inserted);
            all.extend(self.events.get(index));
        }
        all
    }
}

/// The recording with pairs of inner events in a few of its holds or in many, anywhere or right after the
/// outer acquire, up to a limit of events.
pub fn with_inner_pairs(random: &mut Random, events: &[Event], limit: usize) -> Vec<Event> {
    let mut insertion = Insertion::new(events, limit);
    let holds = insertion.holds.clone();
    let most = if holds.is_empty() { 0 } else { insertion.room / 2 };
    let pairs = random.pick(&[2, 4, 8, holds.len(), 2 * holds.len(), most]).min(most);
    let favourite = random.below(holds.len().max(1));
    let early = random.pick(&[0, 50, 95]);
    for _ in 0..pairs {
        let hold = if random.chance(20) { holds[favourite] } else { random.pick(&holds) };
        let last = if random.chance(early) { hold.first } else { hold.last };
        insertion.put_pair(random, hold, last);
    }
    insertion.into_events()
}

/// The recording after a few short holds of one lock by some of its tasks in turn.
pub fn with_turns_before(random: &mut Random, events: &[Event]) -> Vec<Event> {
    let lock = random.below(8);
    let mut turns = Vec::new();
    for _ in 0..if events.is_empty() { 0 } else { random.between(2, 5) } {
        let task = random.pick(events).task;
        turns.extend([Event::acquire(task, lock), Event::release(task, lock)]);
    }
    [&turns, events].concat()
}

/// The recording with one to three locks taken again and again, up to a limit of events; a lock that is never
/// released may stay at any depth.
pub fn with_towers(random: &mut Random, events: &[Event], limit: usize) -> Vec<Event> {
    let mut insertion = Insertion::new(events, limit);
    let holds = insertion.holds.clone();
    for _ in 0..if holds.is_empty() { 0 } else { random.between(1, 3) } {
        let hold = random.pick(&holds);
        let room = insertion.room;
        let most = if hold.released { room / 2 } else { room };
        let acquires = random.pick(&[2, 8, 254, 255, 256, 299, 300, most, most]).min(most);
        let releases =
            if hold.released { acquires } else { random.between(0, acquires.min(room - acquires)) };
        insertion.put_tower(random, hold, acquires, releases);
    }
    insertion.into_events()
}

#[cfg(test)]
mod tests {
    use super::*;
    use crate::patterns::Search;
    use crate::recording::{encode, Recording};
    use crate::shapes::{any_plain_events, Class};

    fn deadlocks(recording: &Recording) -> Vec<Vec<usize>> {
        let mut found = Vec::new();
        Search::new(recording, 16).deadlocks(&mut |pattern| {
            found.push(pattern.to_vec());
            true
        });
        found
    }

    #[test]
    fn inner_events_change_only_the_numbers_of_deadlocks() {
        let random = &mut Random::new(5);
        let mut total = 0;
        for round in 0..400 {
            let events = any_plain_events(random, Class::Small);
            let put_in = if round % 2 == 0 { with_inner_pairs } else { with_towers };
            let with_inner = put_in(random, &events, events.len() + 20);
            let read = |events: &[Event]| Recording::read(&encode(events)).ok().unwrap();
            let (plain, nested) = (read(&events), read(&with_inner));
            let numbers: Vec<usize> = (1..=nested.count()).filter(|&e| !nested.is_inner(e)).collect();
            assert!(numbers.iter().map(|&e| nested.event(e)).eq(events));
            let renumbered = |pattern: &Vec<usize>| pattern.iter().map(|&e| numbers[e - 1]).collect();
            let expected: Vec<Vec<usize>> = deadlocks(&plain).iter().map(renumbered).collect();
            assert_eq!(deadlocks(&nested), expected);
            total += usize::from(nested.count() > plain.count()) * expected.len();
        }
        assert!(total > 100);
    }

    #[test]
    fn towers_reach_the_greatest_depth() {
        let random = &mut Random::new(1);
        let depth = |events: &[Event]| {
            let mut locks = crate::locks::Locks::all_free();
            let depths = events.iter().map(|&event| {
                locks.pass(event);
                locks.depth(0)
            });
            depths.max()
        };
        let greatest = (0..100).filter_map(|_| depth(&with_towers(random, &[Event::acquire(0, 0)], 4095)));
        assert_eq!(greatest.max(), Some(4095));
    }
}
