//! Random arguments for a well-formed recording, in and out of range; patterns are in `lent_patterns`.

use crate::closure::put_into_set;
use crate::random::Random;
use crate::recording::{Recording, LOCKS};

/// A largest size: mostly 0, which stands for 16, or 2 to 16, else one that question 8 refuses.
pub fn size(random: &mut Random) -> u64 {
    match random.below(100) {
        0..=36 => 0,
        37..=91 => random.pick(&[2, 2, 2, 3, 3, 4, 5, 6, 7, 8, 9, 10, 11, 12, 13, 14, 15, 15, 16, 16]),
        _ => random.pick(&[1, 1, 17, 18, 256, 258, 65_536, 65_538, 1 << 32, (1 << 32) + 2, u64::MAX]),
    }
}

/// An event number: mostly 1 to n, at times of a lock that is taken again, a start, a join or a started
/// task's first event, else one that question 9 refuses.
pub fn event(random: &mut Random, recording: &Recording) -> u64 {
    let n = recording.count();
    let forked = events_at_forks_and_joins(recording);
    if !forked.is_empty() && random.chance(30) {
        return random.pick(&forked) as u64;
    }
    let again = events_of_locks_taken_again(recording);
    if !again.is_empty() && random.chance(50) {
        return random.pick(&again) as u64;
    }
    if n > 0 && random.chance(85) {
        return random.between(1, n) as u64;
    }
    let n = n as u64;
    random.pick(&[0, 0, 1, n, n + 1, n + 1, n + 2, 4096, 65_536, 65_537, (1 << 32) + 1, u64::MAX])
}

/// The acquires and releases, outer and inner, of the locks that have inner ones.
fn events_of_locks_taken_again(recording: &Recording) -> Vec<usize> {
    let numbers = 1..=recording.count();
    let mut taken_again = [false; LOCKS];
    numbers
        .clone()
        .filter(|&e| recording.is_inner(e))
        .for_each(|e| taken_again[recording.event(e).object] = true);
    numbers.filter(|&e| recording.event(e).uses_lock() && taken_again[recording.event(e).object]).collect()
}

/// The starts, the joins and the first events of started tasks.
fn events_at_forks_and_joins(recording: &Recording) -> Vec<usize> {
    let is_fork_of = |fork: usize, task: usize| recording.fork_of(task) == Some(fork);
    let is_first = |e: usize| is_fork_of(recording.relations(e).predecessor, recording.event(e).task);
    (1..=recording.count()).filter(|&e| recording.event(e).names_task() || is_first(e)).collect()
}

/// A lock number: mostly one that occurs, else any or one that question 14 refuses.
pub fn lock(random: &mut Random, recording: &Recording) -> u64 {
    let locks: Vec<u64> = (1..=recording.count())
        .filter(|&e| recording.is_acquire(e))
        .map(|e| recording.event(e).object as u64)
        .collect();
    match random.below(10) {
        0..=6 if !locks.is_empty() => random.pick(&locks),
        7 => random.below(64) as u64,
        _ => random.pick(&[0, 62, 63, 63, 64, 64, 65, 256, 319, 65_536, 1 << 32, u64::MAX]),
    }
}

/// A set of events: few members or many, at times of a wrong length or with bits after event n.
pub fn set(random: &mut Random, recording: &Recording) -> Vec<u8> {
    let n = recording.count();
    let mut set = vec![0; n.div_ceil(8)];
    let members = random.pick(&[0, 1, 1, 2, 2, 2, 3, 4, n / 4, n]);
    for _ in 0..members.min(n) * usize::from(n > 0) {
        put_into_set(&mut set, random.between(1, n));
    }
    if n > 0 && random.chance(15) {
        put_into_set(&mut set, random.pick(&[1, n]));
    }
    if random.chance(40) {
        members_taken_again(random, recording).iter().for_each(|&event| put_into_set(&mut set, event));
    }
    let forked = events_at_forks_and_joins(recording);
    for _ in 0..if forked.is_empty() { 0 } else { random.pick(&[0, 0, 1, 2]) } {
        put_into_set(&mut set, random.pick(&forked));
    }
    let bits = 8 * set.len();
    if bits > n && random.chance(10) {
        put_into_set(&mut set, random.between(n + 1, bits));
    }
    match random.below(20) {
        0 => set.push(random.pick(&[0, 255])),
        1 => set.truncate(n.div_ceil(8).saturating_sub(1)),
        2 => set.clear(),
        _ => {}
    }
    set
}

/// Two outer acquires of a lock that is taken again, at times one and the same, or with one more event of it.
fn members_taken_again(random: &mut Random, recording: &Recording) -> Vec<usize> {
    let again = events_of_locks_taken_again(recording);
    if again.is_empty() {
        return Vec::new();
    }
    let one = random.pick(&again);
    let is_outer_acquire = |&e: &usize| recording.is_outer_acquire(e);
    let same_lock = |&e: &usize| recording.event(e).object == recording.event(one).object;
    let acquires: Vec<usize> = again.into_iter().filter(is_outer_acquire).filter(same_lock).collect();
    let mut members = vec![random.pick(&acquires), random.pick(&acquires)];
    if random.chance(40) {
        members.push(one);
    }
    members
}

/// The length of lent bytes where so many are written: exact, short, longer or none.
pub fn room(random: &mut Random, needed: usize) -> usize {
    match random.below(10) {
        0..=3 => needed,
        4..=5 => needed.saturating_sub(1),
        6 => needed + random.between(1, 20),
        7 => needed + 1,
        8 => random.below(needed + 1),
        _ => random.pick(&[0, 0, 0, 1000]),
    }
}
