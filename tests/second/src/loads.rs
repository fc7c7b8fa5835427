//! Random recordings and numbers for a load.

use crate::random::Random;
use crate::recording::{Event, TASKS};
use crate::styles::{any_walk, step, Builder};
use crate::tasks::Tasks;

/// A number n of events for a load, mostly one that has exact halves, which are at multiples of 8 only.
pub fn event_count(random: &mut Random) -> usize {
    match random.below(10) {
        0..=5 => random.pick(&[8, 16, 24, 40, 56, 72, 200, 400]),
        6 => random.pick(&[1000, 4000, 4093, 4095]),
        _ => random.between(1, 300),
    }
}

/// A number h of those n events: mostly one with 100 × h / n at a half or, where none is, nearest to one;
/// else nearest to a half without being one, or any.
pub fn held_count(random: &mut Random, n: usize) -> usize {
    let from_half = |h: usize| (200 * h % (2 * n)).abs_diff(n);
    let least = match random.below(10) {
        0..=6 => 0,
        7..=8 => 1,
        _ => return random.between(0, n),
    };
    let nearest = (0..=n).map(from_half).filter(|&distance| distance >= least).min();
    let choices: Vec<usize> = (0..=n).filter(|&h| Some(from_half(h)) == nearest).collect();
    random.pick(&choices)
}

/// A recording of n events of which h leave this lock held, at depth 1 or deeper, by one task or another,
/// while tasks walk with the other locks, and at times start and join others.
pub fn events_with_load(random: &mut Random, lock: usize, h: usize, n: usize) -> Vec<Event> {
    let walk = any_walk(random, n);
    let mut builder = Builder::new();
    let mut others: Vec<Vec<usize>> = vec![Vec::new(); walk.tasks];
    let (mut task, mut holder, mut depth) = (0, 0, 0);
    let again = random.pick(&[0, 0, 20, 70, 98]);
    let forks = random.pick(&[0, 0, 5, 30]);
    let mut tasks = Tasks::without_events();
    for (held, held_next) in held_after(random, h, n) {
        if !random.chance(walk.stay) {
            task = random.below(walk.tasks);
        }
        // No step of the walk takes the lock.
        builder.free[lock] = false;
        let event = match next_depth(random, depth, held, held_next, again) {
            next if next > depth => {
                holder = if depth == 0 { task } else { holder };
                depth = next;
                Event::acquire(holder, lock)
            }
            next if next < depth => {
                depth = next;
                Event::release(holder, lock)
            }
            _ => {
                let forked =
                    fork_or_join(random, task, walk.tasks).filter(|&event| tasks.first_no(event).is_none());
                let chosen = forked.filter(|_| random.chance(forks));
                chosen.unwrap_or_else(|| step(random, &walk, task, &mut others[task], &builder))
            }
        };
        builder.take(event);
        tasks.pass(event);
    }
    builder.events
}

/// A start of any task, or a join of one beyond those that walk, if there is any.
fn fork_or_join(random: &mut Random, task: usize, walking: usize) -> Option<Event> {
    if random.chance(50) {
        return Some(Event::fork(task, random.below(TASKS)));
    }
    (walking < TASKS).then(|| Event::join(task, random.between(walking, TASKS - 1)))
}

/// The depth of the lock after the next event, where it is held or not after that one and then after so many
/// more: one more or less in so many per cent of the cases, but always in time to be released.
fn next_depth(random: &mut Random, depth: usize, held: bool, held_next: usize, again: usize) -> usize {
    match depth {
        0 => usize::from(held),
        1 if !held => 0,
        _ if depth > held_next + 1 => depth - 1,
        _ if !random.chance(again) => depth,
        _ if depth <= held_next && random.chance(60) => depth + 1,
        _ => (depth - 1).max(1),
    }
}

/// Whether a lock is held after each of n events, as it is after h of them, in few long turns or many, and
/// after how many of the following ones in a row it still is; at the recording's end, after any number.
fn held_after(random: &mut Random, h: usize, n: usize) -> Vec<(bool, usize)> {
    let turns = random.pick(&[3, 20, 60]);
    let (mut held, mut held_left) = (false, h);
    let mut after = Vec::new();
    for left in (1..=n).rev() {
        held = held_left == left || held_left > 0 && held != random.chance(turns);
        held_left -= usize::from(held);
        after.push((held, 0));
    }
    let mut held_next = n;
    for (held, next) in after.iter_mut().rev() {
        *next = held_next;
        held_next = if *held { held_next + 1 } else { 0 };
    }
    after
}

#[cfg(test)]
mod tests {
    use super::*;
    use crate::calls::held_of_all;
    use crate::recording::encode;

    #[test]
    fn loads_are_as_chosen() {
        let mut random = Random::new(1);
        let mut forks_and_joins = 0;
        for (h, n) in [(0, 0), (0, 1), (1, 1), (1, 8), (7, 8), (8, 8), (27, 200), (4094, 4095)] {
            for _ in 0..10 {
                let events = events_with_load(&mut random, 63, h, n);
                assert_eq!(held_of_all(&encode(&events), 63), Ok((h as u64, n as u64)));
                forks_and_joins += events.iter().filter(|event| event.names_task()).count();
            }
        }
        assert!(forks_and_joins > 50);
    }
}
