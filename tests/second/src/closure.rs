//! The closure of 01, by a worklist: events are added one by one, each with all that it asks for.

use crate::recording::{Recording, LOCKS};

/// A set of events that satisfies the closure's rules.
#[derive(Clone)]
pub struct Closure<'a> {
    recording: &'a Recording,
    /// Whether event e is a member, at index e.
    member: Vec<bool>,
    /// For each lock its latest outer acquire among the members, or 0.
    latest_acquire: [usize; LOCKS],
}

impl<'a> Closure<'a> {
    /// The empty set, which satisfies all rules of 01: "The closure of an event set is the
    /// smallest set that contains it and satisfies".
    pub fn empty(recording: &'a Recording) -> Closure<'a> {
        let member = vec![false; recording.count() + 1];
        Closure { recording, member, latest_acquire: [0; LOCKS] }
    }

    /// 01: "The closure of an event set is the smallest set that contains it and satisfies".
    pub fn of(recording: &'a Recording, events: &[usize]) -> Closure<'a> {
        let mut closure = Closure::empty(recording);
        for &event in events {
            closure.add(event, &[]);
        }
        closure
    }

    /// Adds an event and, until nothing changes, all that 01 demands: "with an event, it has that
    /// event's predecessor and writer, where not 0; with two acquires of one lock, it has the match
    /// of the earlier one"; 02, job 9: "Only the acquire from depth 0 [counts as acquire] in closure",
    /// and inner events "follow task order only"; job 1: "A joined task's last event, or its start if it has
    /// no event, also belongs to any closure holding the join." Stops with false as soon as an avoided event
    /// would be added.
    pub fn add(&mut self, event: usize, avoided: &[usize]) -> bool {
        let mut waiting = vec![event];
        while let Some(next) = waiting.pop() {
            if next == 0 || self.member[next] {
                continue;
            }
            if avoided.contains(&next) {
                return false;
            }
            self.member[next] = true;
            let relations = self.recording.relations(next);
            waiting.push(relations.predecessor);
            waiting.push(relations.writer);
            waiting.push(relations.awaited);
            if self.recording.is_outer_acquire(next) {
                waiting.push(self.match_demanded_by(next));
            }
        }
        true
    }

    /// The match that a new member, an outer acquire, makes necessary: that of the earlier one of it and
    /// the latest outer acquire of its lock so far, since all the others have theirs already.
    fn match_demanded_by(&mut self, acquire: usize) -> usize {
        let latest = &mut self.latest_acquire[self.recording.event(acquire).object];
        let earlier = acquire.min(*latest);
        *latest = acquire.max(*latest);
        match earlier {
            0 => 0,
            _ => self.recording.relations(earlier).matching,
        }
    }

    /// Whether an event is in the set, 01: "contains none of its events".
    pub fn contains(&self, event: usize) -> bool {
        self.member[event]
    }

    /// The members, 01: "in recording order".
    pub fn events(&self) -> Vec<usize> {
        (1..self.member.len()).filter(|&event| self.member[event]).collect()
    }
}

/// 01: "In a set, event 1 is the top bit of the first byte."
pub fn set_has(set: &[u8], event: usize) -> bool {
    set[(event - 1) / 8] & top_bit_moved(event) != 0
}

/// 01: "In a set, event 1 is the top bit of the first byte."
pub fn put_into_set(set: &mut [u8], event: usize) {
    set[(event - 1) / 8] |= top_bit_moved(event);
}

/// The bit of an event within its byte.
fn top_bit_moved(event: usize) -> u8 {
    128 >> ((event - 1) % 8)
}

#[cfg(test)]
mod tests {
    use super::*;
    use crate::random::Random;
    use crate::recording::{encode, Operation};
    use crate::shapes::{any_events, Class};

    /// "A joined task's last event, or its start if it has no event", for a join.
    fn end_of_joined(recording: &Recording, join: usize) -> Option<usize> {
        let joined = recording.event(join).object;
        let last = (1..=recording.count()).rfind(|&e| recording.event(e).task == joined);
        last.or(recording.fork_of(joined))
    }

    /// The rules as 01 and 02 word them, over outer acquires, applied until nothing changes.
    fn by_the_words(recording: &Recording, start: &[usize]) -> Vec<usize> {
        let mut set = start.to_vec();
        loop {
            let mut wanted = Vec::new();
            for &e in &set {
                wanted.extend([recording.relations(e).predecessor, recording.relations(e).writer]);
                if recording.event(e).operation == Operation::Join {
                    wanted.extend(end_of_joined(recording, e));
                }
                for &f in set.iter().filter(|&&f| e < f) {
                    let both = recording.is_outer_acquire(e) && recording.is_outer_acquire(f);
                    if both && recording.event(e).object == recording.event(f).object {
                        wanted.push(recording.relations(e).matching);
                    }
                }
            }
            wanted.retain(|&e| e != 0 && !set.contains(&e));
            if wanted.is_empty() {
                set.sort();
                return set;
            }
            set.push(wanted[0]);
        }
    }

    #[test]
    fn worklist_gives_the_smallest_set() {
        let random = &mut Random::new(7);
        let mut with_joins = 0;
        for _ in 0..600 {
            let recording = Recording::read(&encode(&any_events(random, Class::Small))).ok().unwrap();
            let count = recording.count();
            let mut start: Vec<usize> = (0..count.min(3)).map(|_| random.between(1, count)).collect();
            start.sort();
            start.dedup();
            let closed = Closure::of(&recording, &start).events();
            assert_eq!(closed, by_the_words(&recording, &start));
            with_joins += usize::from(closed.iter().any(|&e| recording.relations(e).awaited != 0));
        }
        assert!(with_joins > 50);
    }
}
