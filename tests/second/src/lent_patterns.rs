//! Random patterns to lend for a well-formed recording: true, changed and false ones.

use crate::patterns::{is_deadlock, Search};
use crate::random::Random;
use crate::recording::{bytes_from, Recording};

/// A pattern of the recording with the verdict deadlock, or with the verdict "not", if one is found.
pub fn pattern_with_verdict(
    random: &mut Random,
    recording: &Recording,
    deadlock: bool,
) -> Option<Vec<usize>> {
    let mut found: Vec<Vec<usize>> = Vec::new();
    let mut looked_at = 0;
    let mut collect = |pattern: &[usize]| {
        if is_deadlock(recording, pattern) == deadlock {
            found.push(pattern.to_vec());
        }
        looked_at += 1;
        found.len() < 100 && looked_at < 2000
    };
    let largest = if deadlock || recording.count() < 200 { 16 } else { 3 };
    let search = Search::new(recording, largest);
    if deadlock {
        search.deadlocks(&mut collect);
    } else {
        search.patterns(&mut collect);
    }
    if random.chance(30) {
        return found.into_iter().max_by_key(Vec::len);
    }
    (!found.is_empty()).then(|| random.pick(&found))
}

/// A list of event numbers that is a pattern only by chance.
pub fn false_pattern(random: &mut Random, recording: &Recording) -> Vec<usize> {
    let n = recording.count();
    let acquires: Vec<usize> = (1..=n).filter(|&e| recording.is_acquire(e)).collect();
    let length = random.between(1, 4);
    if acquires.is_empty() || random.chance(10) {
        return (0..length).map(|_| random.below(n + 2)).collect();
    }
    let ring = cycle(random, recording, &acquires);
    ring.unwrap_or_else(|| (0..length).map(|_| random.pick(&acquires)).collect())
}

/// A ring of acquires, each with its lock held by the next, whose tasks and held locks need not
/// differ; the smallest event is first.
fn cycle(random: &mut Random, recording: &Recording, acquires: &[usize]) -> Option<Vec<usize>> {
    let holds = |event: usize, lock: usize| recording.relations(event).held >> lock & 1 == 1;
    for _ in 0..30 {
        let mut list = vec![random.pick(acquires)];
        while list.len() < 5 {
            let lock = recording.event(list[list.len() - 1]).object;
            if holds(list[0], lock) {
                let smallest = (0..list.len()).min_by_key(|&index| list[index])?;
                list.rotate_left(smallest);
                return Some(list);
            }
            let next: Vec<usize> = acquires.iter().copied().filter(|&e| holds(e, lock)).collect();
            if next.is_empty() {
                break;
            }
            list.push(random.pick(&next));
        }
    }
    None
}

/// The bytes of a pattern, changed in one of many ways.
pub fn changed_pattern(random: &mut Random, pattern: &[usize], recording: &Recording) -> Vec<u8> {
    let n = recording.count();
    let mut list = pattern.to_vec();
    let index = random.below(list.len());
    let inner_acquires = inner_acquires_like(recording, list[index]);
    if !inner_acquires.is_empty() && random.chance(30) {
        list[index] = random.pick(&inner_acquires);
        return bytes_from(&list);
    }
    let forked = forks_and_joins_like(recording, list[index]);
    if !forked.is_empty() && random.chance(30) {
        list[index] = random.pick(&forked);
        return bytes_from(&list);
    }
    match random.below(15) {
        0..=1 => list.rotate_left(index),
        2 => list.reverse(),
        3 => list[index] = random.pick(&[0, n + 1, n + 2, 4096, 65_535]),
        4 => list[index] = random.between(1, n),
        5 => list[index] = recording.relations(list[index]).matching,
        6 => list.truncate(1),
        7 => list.clear(),
        8 => list = (0..17).map(|i| pattern[i % pattern.len()]).collect(),
        9 => list = (1..=17).map(|_| random.between(1, n)).collect(),
        10 => list.push(random.between(1, n)),
        11 => drop(list.remove(index)),
        12 => list.insert(index, pattern[index]),
        13 => return bytes_from(&list)[1..].to_vec(),
        _ => return [bytes_from(&list), random.bytes(1)].concat(),
    }
    bytes_from(&list)
}

/// The inner acquires of a pattern event's lock by its task, or of any lock by its task where there are none.
fn inner_acquires_like(recording: &Recording, event: usize) -> Vec<usize> {
    let task = recording.event(event).task;
    let is_inner_acquire = |e: usize| recording.is_inner(e) && recording.is_acquire(e);
    let of_task = |&e: &usize| is_inner_acquire(e) && recording.event(e).task == task;
    let of_lock = |&e: &usize| recording.event(e) == recording.event(event);
    let all: Vec<usize> = (1..=recording.count()).filter(of_task).collect();
    let alike: Vec<usize> = all.iter().copied().filter(of_lock).collect();
    if alike.is_empty() {
        all
    } else {
        alike
    }
}

/// The starts and joins of a pattern event's task with the same held locks, or any by its task where there
/// are none.
fn forks_and_joins_like(recording: &Recording, event: usize) -> Vec<usize> {
    let task = recording.event(event).task;
    let of_task = |&e: &usize| recording.event(e).names_task() && recording.event(e).task == task;
    let alike = |&e: &usize| recording.relations(e).held == recording.relations(event).held;
    let all: Vec<usize> = (1..=recording.count()).filter(of_task).collect();
    let with_locks: Vec<usize> = all.iter().copied().filter(alike).collect();
    if with_locks.is_empty() {
        all
    } else {
        with_locks
    }
}
