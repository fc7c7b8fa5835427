//! Proposed schedules for a pattern: good ones, and ones that break a rule of 01.

use crate::closure::Closure;
use crate::forked_proposals::{has_task_events, spoil_or_extend};
use crate::locks::Locks;
use crate::patterns::closure_of_predecessors;
use crate::random::Random;
use crate::recording::{bytes_from, Recording, LOCKS, TASKS};

/// The bytes of a schedule: the events that come before the pattern, in some order, at times spoilt.
pub fn schedule(random: &mut Random, pattern: &[usize], recording: &Recording) -> Vec<u8> {
    let mut list = closure_of_predecessors(recording, pattern).events();
    let forked = has_task_events(recording) && random.chance(75);
    match random.below(32) {
        _ if forked => spoil_or_extend(random, &mut list, pattern, recording),
        0..=2 => {}
        3..=5 => swap_neighbours(random, &mut list, recording),
        6..=8 => list = merged_again(random, &list, recording),
        9..=11 => {
            extend(random, &mut list, pattern, recording);
            list = merged_again(random, &list, recording);
        }
        12..=14 => extend(random, &mut list, pattern, recording),
        15 => list.retain(|event| !pattern.contains(event)),
        16 => list = (1..=random.below(recording.count() + 1)).collect(),
        17 => list.clear(),
        18..=19 => drop_inner_event(random, &mut list, recording),
        20..=21 => swap_inner_event(random, &mut list, recording),
        22..=29 => hand_over(random, &mut list, pattern, recording),
        _ => spoil(random, &mut list, recording.count()),
    }
    let mut bytes = bytes_from(&list);
    if random.chance(4) {
        bytes.push(0);
    }
    bytes
}

/// Swaps neighbours a few times, mostly where they are of different tasks.
fn swap_neighbours(random: &mut Random, list: &mut [usize], recording: &Recording) {
    if list.len() < 2 {
        return;
    }
    for _ in 0..random.between(1, list.len().min(20)) {
        let at = random.below(list.len() - 1);
        let one_task = recording.event(list[at]).task == recording.event(list[at + 1]).task;
        if !one_task || random.chance(3) {
            list.swap(at, at + 1);
        }
    }
}

/// The same events, each task's in order, in other turns, acquires where no other task has their locks, and
/// starts and joins where their tasks' events let them stand.
pub fn merged_again(random: &mut Random, list: &[usize], recording: &Recording) -> Vec<usize> {
    let of_task = |task: usize| list.iter().rev().copied().filter(move |&e| recording.event(e).task == task);
    let mut waiting: Vec<Vec<usize>> = (0..TASKS).map(|task| of_task(task).collect()).collect();
    let mut locks = Locks::all_free();
    let mut merged = Vec::new();
    let mut missing = vec![false; recording.count() + 1];
    list.iter().for_each(|&event| missing[event] = true);
    loop {
        let is_blocked =
            |e: usize| locks.is_held_by_another(recording.event(e).object, recording.event(e).task);
        let is_early = |e: usize| {
            let relations = recording.relations(e);
            missing[relations.predecessor] || missing[relations.awaited]
        };
        let can_be_next = |&e: &usize| !is_early(e) && (!recording.is_acquire(e) || !is_blocked(e));
        let ready: Vec<usize> =
            waiting.iter().filter_map(|events| events.last().copied()).filter(can_be_next).collect();
        if ready.is_empty() {
            return merged;
        }
        let number = random.pick(&ready);
        let event = recording.event(number);
        locks.pass(event);
        missing[number] = false;
        merged.push(number);
        waiting[event.task].pop();
    }
}

/// Adds events that are not listed: next ones of their tasks, most of them not of the pattern.
fn extend(random: &mut Random, list: &mut Vec<usize>, pattern: &[usize], recording: &Recording) {
    let mut listed = vec![false; recording.count() + 1];
    listed[0] = true;
    list.iter().for_each(|&event| listed[event] = true);
    for _ in 0..random.between(1, 12) {
        let waits = !random.chance(5);
        let is_early = |e: usize| waits && !listed[recording.relations(e).awaited];
        let is_next = |&e: &usize| !listed[e] && listed[recording.relations(e).predecessor] && !is_early(e);
        let mut next: Vec<usize> = (1..=recording.count()).filter(is_next).collect();
        if !random.chance(5) {
            next.retain(|event| !pattern.contains(event));
        }
        if next.is_empty() {
            return;
        }
        let event = random.pick(&next);
        listed[event] = true;
        list.push(event);
    }
}

/// Adds two tasks' holds of a lock, one after the other, with all that their closure needs, where that is
/// none of the pattern; mostly the later task then takes the lock before its outer release, which comes late
/// with the rest of the earlier task's events.
fn hand_over(random: &mut Random, list: &mut Vec<usize>, pattern: &[usize], recording: &Recording) {
    for (earlier, later) in handovers(random, recording).into_iter().take(40) {
        let closure = Closure::of(recording, &[&list[..], &[earlier, later]].concat());
        if pattern.iter().any(|&event| closure.contains(event)) {
            continue;
        }
        *list = closure.events();
        if random.chance(75) {
            let place = |event: usize| list.iter().position(|&listed| listed == event);
            let release = recording.relations(earlier).matching;
            if let (Some(from), Some(to)) = (place(release), place(later)) {
                let task = recording.event(earlier).task;
                list[from..=to].sort_by_key(|&event| recording.event(event).task == task);
            }
        }
        return;
    }
}

/// The outer acquires of a lock, each with the next one of it, by another task, in random order; those with
/// inner events in the earlier hold, if there are any.
fn handovers(random: &mut Random, recording: &Recording) -> Vec<(usize, usize)> {
    let numbers = 1..=recording.count();
    let mut latest = [0; LOCKS];
    let mut all = Vec::new();
    for acquire in numbers.filter(|&e| recording.is_outer_acquire(e)) {
        let event = recording.event(acquire);
        let earlier = std::mem::replace(&mut latest[event.object], acquire);
        if earlier != 0 && recording.event(earlier).task != event.task {
            all.push((earlier, acquire));
        }
    }
    let has_inner = |&(earlier, _): &(usize, usize)| {
        let is_of_lock = |e: usize| recording.event(e).object == recording.event(earlier).object;
        (earlier..recording.relations(earlier).matching).any(|e| recording.is_inner(e) && is_of_lock(e))
    };
    let with_inner: Vec<(usize, usize)> = all.iter().copied().filter(has_inner).collect();
    let chosen = if with_inner.is_empty() { all } else { with_inner };
    random.permutation(chosen.len()).into_iter().map(|index| chosen[index]).collect()
}

/// Drops a listed inner event, if there is any: mostly one that is the last of its task in the list.
fn drop_inner_event(random: &mut Random, list: &mut Vec<usize>, recording: &Recording) {
    let is_followed = |event: usize| list.iter().any(|&e| recording.relations(e).predecessor == event);
    let places: Vec<usize> = (0..list.len()).filter(|&at| recording.is_inner(list[at])).collect();
    let last: Vec<usize> = places.iter().copied().filter(|&at| !is_followed(list[at])).collect();
    let choices = if last.is_empty() || random.chance(30) { places } else { last };
    if !choices.is_empty() {
        list.remove(random.pick(&choices));
    }
}

/// Swaps a listed inner event with its predecessor, if there is any.
fn swap_inner_event(random: &mut Random, list: &mut [usize], recording: &Recording) {
    let place = |event: usize| list.iter().position(|&listed| listed == event);
    let inner = (0..list.len()).filter(|&at| recording.is_inner(list[at]));
    let swaps: Vec<(usize, usize)> =
        inner.filter_map(|at| Some((place(recording.relations(list[at]).predecessor)?, at))).collect();
    if !swaps.is_empty() {
        let (one, other) = random.pick(&swaps);
        list.swap(one, other);
    }
}

/// Drops, repeats or replaces a listed event.
fn spoil(random: &mut Random, list: &mut Vec<usize>, n: usize) {
    if list.is_empty() {
        return list.push(random.below(n + 2));
    }
    let at = random.below(list.len());
    match random.below(6) {
        0 => drop(list.remove(at)),
        1 => drop(list.pop()),
        2 => list.push(list[at]),
        3 => list.insert(at, list[at]),
        4 => list[at] = random.pick(&[0, n + 1, 4096, 65_535]),
        _ => list.push(random.pick(&[0, n + 1, 65_535])),
    }
}
