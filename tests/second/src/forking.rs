//! Random recordings in which tasks start and join others.

use crate::random::Random;
use crate::recording::{Event, Operation, TASKS, VARIABLES};
use crate::shapes::LONGEST;
use std::ops::RangeInclusive;

/// Chances in per cent for the starts and joins that are put into a recording.
struct Manner {
    /// That a task is started, and that it is joined.
    fork: usize,
    join: usize,
    /// That a start stands as early as it can, and a join as late as it can.
    early: usize,
    late: usize,
}

impl Manner {
    /// The chances for a recording, whose other events shall or need not stand between all starts and joins.
    fn any(random: &mut Random, apart: bool) -> Manner {
        let (fork, join) = (random.pick(&[60, 90, 100, 100]), random.pick(&[0, 40, 80, 100]));
        if apart {
            return Manner { fork, join, early: 100, late: 100 };
        }
        Manner { fork, join, early: random.pick(&[0, 50, 100, 100]), late: random.pick(&[0, 30, 60, 100]) }
    }
}

/// The recording with starts and joins: its tasks, with a few that have no events, start and join each
/// other as a main task does, in a chain, in a tree or at random; at times there are short-lived ones, too.
pub fn with_forks(random: &mut Random, mut events: Vec<Event>, apart: bool) -> Vec<Event> {
    for _ in 0..random.pick(&[0, 0, 1, 1, 2]) {
        put_short_lived(random, &mut events, apart);
    }
    let manner = Manner::any(random, apart);
    let tasks = tasks_to_fork(random, &events);
    let pairs = pairs(random, &tasks);
    for &(parent, child) in &pairs {
        if random.chance(manner.fork) {
            put(random, &mut events, Event::fork(parent, child), manner.early);
        }
    }
    for &(parent, child) in pairs.iter().rev() {
        let other = random.pick(&tasks);
        let (joiner, joined) =
            random.pick(&[(parent, child), (parent, child), (other, child), (child, parent)]);
        for _ in 0..random.pick(&[1, 1, 1, 2]) {
            if random.chance(manner.join) {
                put(random, &mut events, Event::join(joiner, joined), manner.late);
            }
        }
    }
    events
}

/// Puts in the whole life of a task without other events, before all other events or not: a start, mostly, by
/// the task of the event there, what the task does, and a join by the same task or by that of a later event.
fn put_short_lived(random: &mut Random, events: &mut Vec<Event>, first: bool) {
    let concerns =
        |event: &Event, task: usize| event.task == task || event.names_task() && event.object == task;
    let is_free = |&task: &usize| !events.iter().any(|event| concerns(event, task));
    let free: Vec<usize> = (0..TASKS).filter(is_free).collect();
    if free.is_empty() || events.is_empty() || events.len() + 6 > LONGEST {
        return;
    }
    let at = if first || random.chance(60) { 0 } else { random.below(events.len()) };
    let (task, parent) = (random.pick(&free), events[at].task);
    let others: Vec<usize> = events[at..].iter().map(|event| event.task).filter(|&t| t != parent).collect();
    let joiner = if others.is_empty() || random.chance(40) { parent } else { random.pick(&others) };
    let mut life = Vec::new();
    if random.chance(80) {
        life.push(Event::fork(parent, task));
    }
    if random.chance(65) {
        life.extend(short_work(random, task, at == 0));
    }
    events.splice(at..at, life);
    let join = Event::join(joiner, task);
    if let Some(places) = places(events, join) {
        events.insert(*places.start(), join);
    }
}

/// Up to two writes and, where all locks are free, at times a section of one lock.
fn short_work(random: &mut Random, task: usize, all_free: bool) -> Vec<Event> {
    let mut work = Vec::new();
    for _ in 0..random.below(3) {
        let variables = random.pick(&[8, VARIABLES]);
        work.push(Event { operation: Operation::Write, task, object: random.below(variables) });
    }
    if all_free && random.chance(40) {
        let lock = random.below(8);
        work.extend([Event::acquire(task, lock), Event::release(task, lock)]);
    }
    work
}

/// The recording's tasks in the order of their first events, and up to three others: after them, so that they
/// have no events of their own, or before, so that they start the rest.
fn tasks_to_fork(random: &mut Random, events: &[Event]) -> Vec<usize> {
    let mut tasks: Vec<usize> = Vec::new();
    for event in events {
        if !tasks.contains(&event.task) {
            tasks.push(event.task);
        }
    }
    let others = random.permutation(TASKS).into_iter().filter(|task| !tasks.contains(task));
    let others: Vec<usize> = others.take(random.pick(&[0, 1, 1, 2, 3])).collect();
    for other in others {
        let at = if random.chance(45) { 0 } else { tasks.len() };
        tasks.insert(at, other);
    }
    tasks
}

/// For each task but the first a task that starts and joins it.
fn pairs(random: &mut Random, tasks: &[usize]) -> Vec<(usize, usize)> {
    let family = random.below(4);
    let mut pairs = Vec::new();
    for at in 1..tasks.len() {
        let parent = match family {
            0 => 0,
            1 => at - 1,
            2 => random.below(at),
            _ => random.below(tasks.len()),
        };
        pairs.push((tasks[parent], tasks[at]));
    }
    pairs
}

/// Puts a start or a join into a recording, if it can stand anywhere: in so many per cent of the cases as
/// far as it can from the events of the task that it names, otherwise next to them or anywhere.
fn put(random: &mut Random, events: &mut Vec<Event>, event: Event, far_off: usize) {
    let Some(places) = places(events, event).filter(|_| events.len() < LONGEST) else {
        return;
    };
    let (first, last) = (*places.start(), *places.end());
    let (far, near) = if event.operation == Operation::Fork { (first, last) } else { (last, first) };
    let any = random.between(first, last);
    let at = if random.chance(far_off) { far } else { random.pick(&[near, near, any]) };
    events.insert(at, event);
}

/// The places for a start or a join, each given by the index of the event that follows, at which no question
/// refuses it or an event after it; there need not be any.
fn places(events: &[Event], event: Event) -> Option<RangeInclusive<usize>> {
    let Event { operation, task, object: named } = event;
    let place = |wanted: &dyn Fn(&Event) -> bool| events.iter().position(wanted);
    let names = |wanted: Operation, t: usize| place(&|e| e.operation == wanted && e.object == t);
    let after_fork = |t: usize| names(Operation::Fork, t).map_or(0, |at| at + 1);
    let until_join = |t: usize| names(Operation::Join, t).unwrap_or(events.len());
    let until_events = place(&|e| e.task == named).unwrap_or(events.len());
    let after_events = events.iter().rposition(|e| e.task == named).map_or(0, |at| at + 1);
    let (first, last) = match operation {
        Operation::Fork if after_fork(named) == 0 => (0, until_events.min(until_join(named))),
        Operation::Join => (after_fork(named).max(after_events), events.len()),
        _ => return None,
    };
    let (first, last) = (first.max(after_fork(task)), last.min(until_join(task)));
    (task != named && first <= last).then_some(first..=last)
}

#[cfg(test)]
mod tests {
    use super::*;
    use crate::patterns::Search;
    use crate::recording::{encode, Recording};
    use crate::shapes::{any_plain_events, Class};

    /// The recording, and the numbers in it of the events of another one, into which starts, joins and other
    /// tasks were put.
    fn read_with_numbers(forked: &[Event], plain: &[Event]) -> (Recording, Vec<usize>) {
        let recording = Recording::read(&encode(forked)).ok().unwrap();
        let is_plain =
            |event: Event| plain.iter().any(|other| other.task == event.task) && !event.names_task();
        let numbers: Vec<usize> =
            (1..=recording.count()).filter(|&number| is_plain(recording.event(number))).collect();
        assert!(numbers.iter().map(|&number| recording.event(number)).eq(plain.iter().copied()));
        (recording, numbers)
    }

    fn deadlocks(recording: &Recording) -> Vec<Vec<usize>> {
        let mut found = Vec::new();
        Search::new(recording, 16).deadlocks(&mut |pattern| {
            found.push(pattern.to_vec());
            true
        });
        found
    }

    #[test]
    fn starts_and_joins_apart_change_only_the_numbers_of_deadlocks() {
        let random = &mut Random::new(13);
        let (mut total, mut forks, mut joins) = (0, 0, 0);
        for _ in 0..400 {
            let events = any_plain_events(random, Class::Small);
            let plain = Recording::read(&encode(&events)).ok().unwrap();
            let with_forks = with_forks(random, events.clone(), true);
            let (forked, numbers) = read_with_numbers(&with_forks, &events);
            let renumbered = |pattern: &Vec<usize>| pattern.iter().map(|&e| numbers[e - 1]).collect();
            let expected: Vec<Vec<usize>> = deadlocks(&plain).iter().map(renumbered).collect();
            assert_eq!(deadlocks(&forked), expected);
            let count = |wanted| with_forks.iter().filter(|event| event.operation == wanted).count();
            total += usize::from(count(Operation::Fork) > 0) * expected.len();
            forks += count(Operation::Fork);
            joins += count(Operation::Join);
        }
        assert!(total > 100 && forks > 400 && joins > 400);
    }

    #[test]
    fn starts_and_joins_between_keep_some_deadlocks_out() {
        let random = &mut Random::new(17);
        let (mut kept, mut lost) = (0, 0);
        for _ in 0..400 {
            let events = any_plain_events(random, Class::Small);
            let plain = Recording::read(&encode(&events)).ok().unwrap();
            let with_forks = with_forks(random, events.clone(), false);
            let (forked, numbers) = read_with_numbers(&with_forks, &events);
            let before = deadlocks(&plain);
            let after = deadlocks(&forked);
            let renumbered = |pattern: &Vec<usize>| pattern.iter().map(|&e| numbers[e - 1]).collect();
            let all: Vec<Vec<usize>> = before.iter().map(renumbered).collect();
            let still = all.iter().filter(|pattern| after.contains(pattern)).count();
            kept += still;
            lost += all.len() - still;
        }
        assert!(kept > 100 && lost > 100);
    }
}
