//! Proposed schedules with starts and joins: good ones, and ones that break the rule of 02, job 1.

use crate::closure::Closure;
use crate::proposals::merged_again;
use crate::random::Random;
use crate::recording::{Event, Operation, Recording};

/// Whether the recording has a start or a join.
pub fn has_task_events(recording: &Recording) -> bool {
    (1..=recording.count()).any(|event| recording.event(event).names_task())
}

/// Mostly adds starts and joins to a list, puts its events in other turns, and then at times moves or drops
/// one that a start or a join is about.
pub fn spoil_or_extend(random: &mut Random, list: &mut Vec<usize>, pattern: &[usize], recording: &Recording) {
    for _ in 0..random.pick(&[0, 1, 1, 2, 3]) {
        add_task_event(random, list, pattern, recording);
    }
    if random.chance(40) {
        *list = merged_again(random, list, recording);
    }
    match random.below(12) {
        0..=1 => put_before_fork(random, list, recording),
        2..=3 => drop_fork(random, list, recording),
        4..=7 => put_after_join(random, list, recording),
        8..=10 => drop_awaited(random, list, recording),
        _ => {}
    }
}

/// Adds a start or a join, mostly a join, with all that its closure needs, where that is none of the pattern.
fn add_task_event(random: &mut Random, list: &mut Vec<usize>, pattern: &[usize], recording: &Recording) {
    let wanted = if random.chance(75) { Operation::Join } else { Operation::Fork };
    let is_wanted = |&e: &usize| recording.event(e).operation == wanted && !list.contains(&e);
    let events: Vec<usize> = (1..=recording.count()).filter(is_wanted).collect();
    for at in random.permutation(events.len()).into_iter().take(20) {
        let closure = Closure::of(recording, &[&list[..], &[events[at]]].concat());
        if !pattern.iter().any(|&event| closure.contains(event)) {
            *list = closure.events();
            return;
        }
    }
}

/// Moves a listed first event of a started task to right before its start, if there is any.
fn put_before_fork(random: &mut Random, list: &mut Vec<usize>, recording: &Recording) {
    let place = |event: usize| list.iter().position(|&listed| listed == event);
    let is_fork = |event: usize| event != 0 && recording.event(event).operation == Operation::Fork;
    let fork = |at: usize| Some(recording.relations(list[at]).predecessor).filter(|&event| is_fork(event));
    let is_first = |at: usize, fork: usize| recording.event(fork).object == recording.event(list[at]).task;
    let moves: Vec<(usize, usize)> = (0..list.len())
        .filter_map(|at| Some((at, fork(at).filter(|&fork| is_first(at, fork))?)))
        .filter_map(|(at, fork)| Some((at, place(fork)?)))
        .collect();
    if !moves.is_empty() {
        let (from, to) = random.pick(&moves);
        move_within(list, from, to);
    }
}

/// Drops a listed start, if there is any, mostly with the later events of its own task.
fn drop_fork(random: &mut Random, list: &mut Vec<usize>, recording: &Recording) {
    let is_fork = |&event: &usize| recording.event(event).operation == Operation::Fork;
    let forks: Vec<usize> = list.iter().copied().filter(is_fork).collect();
    if forks.is_empty() {
        return;
    }
    let fork = random.pick(&forks);
    let alone = random.chance(25);
    let goes =
        |e: usize| e == fork || !alone && e > fork && recording.event(e).task == recording.event(fork).task;
    list.retain(|&event| !goes(event));
}

/// Moves what a listed join waits for, and the events of the same task between the two, to right after the
/// join, if there is any.
fn put_after_join(random: &mut Random, list: &mut [usize], recording: &Recording) {
    if let Some((join, awaited)) = any_wait(random, list, recording) {
        let task = recording.event(list[awaited]).task;
        list[awaited..=join].sort_by_key(|&event| recording.event(event).task == task);
    }
}

/// Drops what a listed join waits for, if there is any, with the later events of the same task, and at times
/// with all events of the joined task.
fn drop_awaited(random: &mut Random, list: &mut Vec<usize>, recording: &Recording) {
    let Some((join, awaited)) = any_wait(random, list, recording) else {
        return;
    };
    let (awaited, joined) = (list[awaited], recording.event(list[join]).object);
    let all = random.chance(50);
    let task = |event: usize| recording.event(event).task;
    let goes = |e: usize| e >= awaited && task(e) == task(awaited) || all && task(e) == joined;
    list.retain(|&event| !goes(event));
}

/// The place of a listed join and that of the listed event of another task that it waits for, which stands
/// before it, if there is any: mostly a start, if there are any of these.
fn any_wait(random: &mut Random, list: &[usize], recording: &Recording) -> Option<(usize, usize)> {
    let event = |at: usize| recording.event(list[at]);
    let awaited = |at: usize| {
        let awaited = recording.relations(list[at]).awaited;
        list[..at]
            .iter()
            .position(|&listed| listed == awaited)
            .filter(|&other| event(other).task != event(at).task)
    };
    let all: Vec<(usize, usize)> = (0..list.len()).filter_map(|at| Some((at, awaited(at)?))).collect();
    let is_start =
        |&(join, other): &(usize, usize)| event(other) == Event::fork(event(other).task, event(join).object);
    let starts: Vec<(usize, usize)> = all.iter().copied().filter(is_start).collect();
    let choices = if starts.is_empty() || random.chance(20) { all } else { starts };
    (!choices.is_empty()).then(|| random.pick(&choices))
}

/// Moves the item at one place so that it stands at another.
fn move_within(list: &mut Vec<usize>, from: usize, to: usize) {
    let event = list.remove(from);
    list.insert(to, event);
}

#[cfg(test)]
mod tests {
    use super::*;
    use crate::rows::row;

    /// What a change makes of a list in many tries, for the recording of these words.
    fn outcomes(
        text: &str,
        list: &[usize],
        change: impl Fn(&mut Random, &mut Vec<usize>, &Recording),
    ) -> Vec<Vec<usize>> {
        let recording = Recording::read(&row(text)).ok().unwrap();
        let random = &mut Random::new(1);
        let mut outcomes: Vec<Vec<usize>> = Vec::new();
        for _ in 0..100 {
            let mut changed = list.to_vec();
            change(random, &mut changed, &recording);
            outcomes.push(changed);
        }
        outcomes.sort();
        outcomes.dedup();
        outcomes
    }

    #[test]
    fn starts_are_put_off_and_dropped() {
        let (text, list) = ("T0 s1 s2, T1 a0 a1 r1 r0, T2 a1 a0", [1, 2, 3, 7]);
        assert_eq!(outcomes(text, &list, put_before_fork), [[1, 7, 2, 3], [3, 1, 2, 7]]);
        assert_eq!(outcomes(text, &list, drop_fork), [vec![1, 3, 7], vec![2, 3, 7], vec![3, 7]]);
        assert_eq!(outcomes("T0 W0 W1", &[1, 2], put_before_fork), [[1, 2]]);
        assert_eq!(outcomes("T0 W0 W1", &[1, 2], drop_fork), [[1, 2]]);
    }

    #[test]
    fn joins_are_put_early_and_left_alone() {
        let put_after = |random: &mut Random, list: &mut Vec<usize>, recording: &Recording| {
            put_after_join(random, list, recording);
        };
        let (text, list) = ("T1 W0 W1, T0 W2 j1 W3", [1, 2, 3, 4, 5]);
        assert_eq!(outcomes(text, &list, put_after), [[1, 3, 4, 2, 5]]);
        assert_eq!(outcomes(text, &list, drop_awaited), [vec![1, 3, 4, 5], vec![3, 4, 5]]);
        let (text, list) = ("T2 s1 W0, T0 W1 j1, T2 W2", [1, 2, 3, 4, 5]);
        assert_eq!(outcomes(text, &list, put_after), [[3, 4, 1, 2, 5]]);
        assert_eq!(outcomes(text, &list, drop_awaited), [[3, 4]]);
        for text in ["T0 W0 j1", "T0 s1 j1"] {
            assert_eq!(outcomes(text, &[1, 2], put_after), [[1, 2]]);
            assert_eq!(outcomes(text, &[1, 2], drop_awaited), [[1, 2]]);
        }
    }
}
