//! Deadlock patterns of 01, their verdict, and the search for all of them in order.

use crate::closure::Closure;
use crate::recording::{Recording, LOCKS};

/// 01: "A deadlock pattern of size k (2 to 16) is a list of k acquires by k different tasks of k
/// different locks. The lock of each entry is among the held locks of the next entry, and the last
/// entry's lock among those of the first. No lock is among the held locks of two entries. Only the
/// rotation with the smallest event first counts."; 02, job 9: "Only the acquire from depth 0 [counts as
/// acquire] in [...] patterns".
pub fn is_pattern(recording: &Recording, list: &[usize]) -> bool {
    let size = list.len();
    let is_known = |event: usize| (1..=recording.count()).contains(&event);
    if !(2..=16).contains(&size) || !list.iter().all(|&e| is_known(e) && recording.is_outer_acquire(e)) {
        return false;
    }
    let follows = |i: usize| holds_lock_of(recording, list[(i + 1) % size], list[i]);
    let fits_earlier = |i: usize| list[..i].iter().all(|&earlier| apart(recording, earlier, list[i]));
    (0..size).all(|i| follows(i) && fits_earlier(i) && list[0] <= list[i])
}

/// "The lock of each entry is among the held locks of the next entry"
fn holds_lock_of(recording: &Recording, next: usize, entry: usize) -> bool {
    recording.relations(next).held & (1 << recording.event(entry).object) != 0
}

/// Two entries with different tasks, different locks and no held lock in common.
fn apart(recording: &Recording, one: usize, other: usize) -> bool {
    recording.event(one).task != recording.event(other).task
        && recording.event(one).object != recording.event(other).object
        && recording.relations(one).held & recording.relations(other).held == 0
}

/// The set of 01's verdict: "the closure of the predecessors of its events".
pub fn closure_of_predecessors<'a>(recording: &'a Recording, pattern: &[usize]) -> Closure<'a> {
    let predecessors: Vec<usize> = pattern.iter().map(|&e| recording.relations(e).predecessor).collect();
    Closure::of(recording, &predecessors)
}

/// 01: "A deadlock pattern's verdict is deadlock if the closure of the predecessors of its events
/// contains none of its events, otherwise not".
pub fn is_deadlock(recording: &Recording, pattern: &[usize]) -> bool {
    let closure = closure_of_predecessors(recording, pattern);
    !pattern.iter().any(|&event| closure.contains(event))
}

/// Receives a pattern and says whether the search goes on.
pub type Visitor<'v> = dyn FnMut(&[usize]) -> bool + 'v;

/// The depth-first search for patterns, over chains in ascending order.
pub struct Search<'a> {
    recording: &'a Recording,
    largest: usize,
    /// For each lock the outer acquires, in ascending order, that have it among their held locks.
    holders: Vec<Vec<usize>>,
    /// For a held lock and a lock the latest outer acquire of the second with the first held, or 0.
    latest_nesting: Vec<[usize; LOCKS]>,
}

/// A list that fulfils what 01 asks of a pattern, but for the last entry's lock, which need not be
/// among the held locks of the first.
struct Chain<'a> {
    events: Vec<usize>,
    /// The closure of the predecessors, which contains none of the events, if only deadlocks count.
    closure: Option<Closure<'a>>,
}

/// A chain's first event and how many more entries at least close the chain, by its last lock.
struct Start {
    first: usize,
    entries_missing: [usize; LOCKS],
}

/// A number of missing entries that no chain can afford, as a pattern has 16 at most.
const OUT_OF_REACH: usize = 17;

impl<'a> Search<'a> {
    /// 01: "The permitted sizes run from 2 to the largest size, after 0 has been replaced."
    pub fn new(recording: &'a Recording, largest: usize) -> Search<'a> {
        let mut holders = vec![Vec::new(); LOCKS];
        let mut latest_nesting = vec![[0; LOCKS]; LOCKS];
        for acquire in (1..=recording.count()).filter(|&e| recording.is_outer_acquire(e)) {
            for held in (0..LOCKS).filter(|l| recording.relations(acquire).held >> l & 1 == 1) {
                holders[held].push(acquire);
                latest_nesting[held][recording.event(acquire).object] = acquire;
            }
        }
        Search { recording, largest, holders, latest_nesting }
    }

    /// Visits what 01 lists, "All patterns up to the largest size that demand 2 selects, sorted,
    /// smaller first, by the first event number that differs", that is those with the verdict
    /// deadlock; false if the visitor stopped it.
    pub fn deadlocks(&self, visit: &mut Visitor) -> bool {
        self.each_start(&mut |start| {
            let events = vec![start.first];
            match self.grown(&Closure::empty(self.recording), &events) {
                None => true,
                closure => self.extend(start, &Chain { events, closure }, visit),
            }
        })
    }

    /// Visits every pattern of a permitted size in the same order, whatever its verdict, 01: "the
    /// verdict call says which for a lent pattern"; false if the visitor stopped it.
    pub fn patterns(&self, visit: &mut Visitor) -> bool {
        self.each_start(&mut |start| {
            let chain = Chain { events: vec![start.first], closure: None };
            self.extend(start, &chain, visit)
        })
    }

    /// Takes each outer acquire that can be the first of a pattern, in ascending order.
    fn each_start(&self, begin: &mut dyn FnMut(&Start) -> bool) -> bool {
        let nested = |&e: &usize| self.recording.is_outer_acquire(e) && self.recording.relations(e).held != 0;
        (1..=self.recording.count()).filter(nested).all(|first| {
            let start = Start { first, entries_missing: self.entries_missing(first) };
            !self.can_be_closed(&start, &[first]) || begin(&start)
        })
    }

    /// Extends a chain by each outer acquire after the first that holds its last lock, in ascending order,
    /// and visits the patterns among the longer chains, none of which begins another.
    fn extend(&self, start: &Start, chain: &Chain<'a>, visit: &mut Visitor) -> bool {
        let candidates = &self.holders[self.last_lock(&chain.events)];
        let from = candidates.partition_point(|&event| event <= start.first);
        candidates[from..].iter().all(|&next| match self.extended(start, chain, next) {
            None => true,
            Some(longer) if is_pattern(self.recording, &longer.events) => visit(&longer.events),
            Some(longer) => self.extend(start, &longer, visit),
        })
    }

    /// The chain with one more event, if that is a chain that a permitted pattern can begin with.
    fn extended(&self, start: &Start, chain: &Chain<'a>, next: usize) -> Option<Chain<'a>> {
        if !chain.events.iter().all(|&entry| apart(self.recording, entry, next)) {
            return None;
        }
        let events = [&chain.events[..], &[next]].concat();
        if !self.can_be_closed(start, &events) {
            return None;
        }
        let closure = match &chain.closure {
            None => None,
            Some(closure) => Some(self.grown(closure, &events)?),
        };
        Some(Chain { events, closure })
    }

    /// The closure with the predecessor of the last event added, if it then contains none of the
    /// events; otherwise no pattern that begins with them is a deadlock, since closures only grow.
    fn grown(&self, closure: &Closure<'a>, events: &[usize]) -> Option<Closure<'a>> {
        let last = events[events.len() - 1];
        if closure.contains(last) {
            return None;
        }
        let mut grown = closure.clone();
        grown.add(self.recording.relations(last).predecessor, events).then_some(grown)
    }

    fn last_lock(&self, events: &[usize]) -> usize {
        self.recording.event(events[events.len() - 1]).object
    }

    /// Whether enough entries are left to lead from the last lock back to a lock held by the first event.
    fn can_be_closed(&self, start: &Start, events: &[usize]) -> bool {
        events.len() + start.entries_missing[self.last_lock(events)] <= self.largest
    }

    /// For each lock the length of the shortest way, along acquires after the first event from a lock
    /// held to the lock acquired, to a lock that the first event holds.
    fn entries_missing(&self, first: usize) -> [usize; LOCKS] {
        let held = self.recording.relations(first).held;
        let mut missing = [OUT_OF_REACH; LOCKS];
        let mut reached: Vec<usize> = (0..LOCKS).filter(|lock| held >> lock & 1 == 1).collect();
        for length in 0..OUT_OF_REACH {
            reached.iter().for_each(|&lock| missing[lock] = length);
            let leads = |lock: usize| reached.iter().any(|&to| self.latest_nesting[lock][to] > first);
            let is_next = |&lock: &usize| missing[lock] == OUT_OF_REACH && leads(lock);
            reached = (0..LOCKS).filter(is_next).collect();
        }
        missing
    }
}

#[cfg(test)]
mod tests {
    use super::*;
    use crate::random::Random;
    use crate::recording::encode;
    use crate::shapes::{any_events, Class};

    /// Every list of up to so many acquires, in order, that is a pattern; inner acquires, starts and joins
    /// are tried too.
    fn by_the_words(
        recording: &Recording,
        largest: usize,
        list: &mut Vec<usize>,
        found: &mut Vec<Vec<usize>>,
    ) {
        if is_pattern(recording, list) {
            found.push(list.clone());
        }
        if list.len() < largest {
            let is_tried = |&e: &usize| recording.is_acquire(e) || recording.event(e).names_task();
            for event in (1..=recording.count()).filter(is_tried) {
                list.push(event);
                by_the_words(recording, largest, list, found);
                list.pop();
            }
        }
    }

    #[test]
    fn search_finds_every_pattern_in_order() {
        let random = &mut Random::new(11);
        let mut total = 0;
        for _ in 0..400 {
            let recording = Recording::read(&encode(&any_events(random, Class::Small))).ok().unwrap();
            let largest = random.between(2, 3);
            let mut expected = Vec::new();
            by_the_words(&recording, largest, &mut Vec::new(), &mut expected);
            let (mut patterns, mut deadlocks) = (Vec::new(), Vec::new());
            let search = Search::new(&recording, largest);
            search.patterns(&mut |pattern| {
                patterns.push(pattern.to_vec());
                true
            });
            search.deadlocks(&mut |pattern| {
                deadlocks.push(pattern.to_vec());
                true
            });
            assert_eq!(patterns, expected);
            expected.retain(|pattern| is_deadlock(&recording, pattern));
            assert_eq!(deadlocks, expected);
            total += deadlocks.len();
        }
        assert!(total > 100);
    }
}
