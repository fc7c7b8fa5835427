//! Random well-formed recordings in several styles, in which every acquire is from depth 0.

use crate::random::Random;
use crate::recording::{Event, Operation, LOCKS, TASKS, VARIABLES};
use crate::shapes::LONGEST;

/// What the tasks of a recording do.
#[derive(Clone, Copy, Debug, PartialEq, Eq)]
pub enum Style {
    Walk,
    Ring,
    Crossing,
    Sections,
}

impl Style {
    /// One of the styles.
    pub fn any(random: &mut Random) -> Style {
        match random.below(9) {
            0..=2 => Style::Walk,
            3..=4 => Style::Ring,
            5..=6 => Style::Crossing,
            _ => Style::Sections,
        }
    }

    /// A well-formed recording of about so many events, in which every acquire is from depth 0.
    pub fn events(self, random: &mut Random, limit: usize) -> Vec<Event> {
        match self {
            Style::Walk => walk(random, limit),
            Style::Ring => ring(random, limit),
            Style::Crossing => crossing(random, limit),
            Style::Sections => sections(random, limit),
        }
    }
}

/// A recording under construction that stays well-formed.
pub struct Builder {
    pub events: Vec<Event>,
    /// The locks that a step may take.
    pub free: [bool; LOCKS],
    written: [bool; VARIABLES],
}

impl Builder {
    pub fn new() -> Builder {
        Builder { events: Vec::new(), free: [true; LOCKS], written: [false; VARIABLES] }
    }

    fn can_take(&self, event: Event) -> bool {
        event.operation != Operation::Acquire || self.free[event.object]
    }

    /// Takes an event; a read without an earlier write becomes a write.
    pub fn take(&mut self, mut event: Event) {
        match event.operation {
            Operation::Acquire => self.free[event.object] = false,
            Operation::Release => self.free[event.object] = true,
            Operation::Fork | Operation::Join => {}
            Operation::Read if self.written[event.object] => {}
            Operation::Read | Operation::Write => {
                event.operation = Operation::Write;
                self.written[event.object] = true;
            }
        }
        self.events.push(event);
    }
}

/// A read or a write of one of so many variables.
fn access(random: &mut Random, task: usize, variables: usize) -> Event {
    let operation = random.pick(&[Operation::Read, Operation::Read, Operation::Write]);
    Event { operation, task, object: random.below(variables) }
}

/// How tasks walk at random: so many of each, and chances in per cent.
pub struct Walk {
    pub tasks: usize,
    locks: usize,
    variables: usize,
    /// The most locks that a task holds.
    depth: usize,
    /// The chance to ignore the order of locks.
    invert: usize,
    /// The chance to read or write.
    accesses: usize,
    /// The chance to stay in the task of the event before.
    pub stay: usize,
}

/// A way to walk for a recording of about so many events.
pub fn any_walk(random: &mut Random, limit: usize) -> Walk {
    let short = limit < 100;
    let few = short && random.chance(60);
    let invert = if short { random.pick(&[0, 5, 30, 60, 100]) } else { random.pick(&[0, 2, 6]) };
    let deep = short || invert == 0;
    Walk {
        tasks: if few { random.between(2, 5) } else { random.between(1, TASKS) },
        locks: if few { random.between(2, 5) } else { random.between(1, LOCKS) },
        variables: random.between(1, 8),
        depth: if deep { random.pick(&[1, 2, 2, 3, 3, 4, 8, LOCKS]) } else { random.between(2, 3) },
        invert,
        accesses: random.pick(&[0, 10, 40, 70]),
        stay: random.pick(&[30, 70, 90]),
    }
}

/// Tasks take free locks and release their own at random, the lock order kept but for some inversions.
fn walk(random: &mut Random, limit: usize) -> Vec<Event> {
    let walk = any_walk(random, limit);
    let mut builder = Builder::new();
    let mut held: Vec<Vec<usize>> = vec![Vec::new(); walk.tasks];
    let mut task = 0;
    while builder.events.len() < limit {
        if !random.chance(walk.stay) {
            task = random.below(walk.tasks);
        }
        let event = step(random, &walk, task, &mut held[task], &builder);
        builder.take(event);
    }
    builder.events
}

/// One event of a walk by a task that holds these locks, the newest last.
pub fn step(
    random: &mut Random,
    walk: &Walk,
    task: usize,
    held: &mut Vec<usize>,
    builder: &Builder,
) -> Event {
    if random.chance(walk.accesses) {
        return access(random, task, walk.variables);
    }
    let above = held.iter().max().map_or(0, |lock| lock + 1);
    let lowest = if random.chance(walk.invert) { 0 } else { above };
    let free: Vec<usize> = (lowest..walk.locks).filter(|&lock| builder.free[lock]).collect();
    if held.len() < walk.depth && !free.is_empty() && random.chance(55) {
        let lock = random.pick(&free);
        held.push(lock);
        return Event::acquire(task, lock);
    }
    if held.is_empty() {
        return access(random, task, walk.variables);
    }
    let index = if random.chance(85) { held.len() - 1 } else { random.below(held.len()) };
    Event::release(task, held.remove(index))
}

/// Task i nests lock i and lock i + 1 round a ring, often of few tasks and at times of all, many times with
/// one task after another, or a few times with turns, accesses and guards.
fn ring(random: &mut Random, limit: usize) -> Vec<Event> {
    let size = match random.below(10) {
        0 => TASKS,
        1..=5 => random.between(2, TASKS),
        _ => random.between(2, 5),
    };
    let plain = random.chance(40);
    let most_rounds = if plain { LONGEST } else { [40, 20, 9, 5, 3, 2][size.min(7) - 2] };
    let rounds = (limit / (4 * size)).clamp(1, most_rounds);
    let mut programs: Vec<Vec<Event>> = Vec::new();
    for task in 0..size {
        let nested = [task, (task + 1) % size];
        let guarded = [size, task, (task + 1) % size];
        let locks = if !plain && size < TASKS && random.chance(15) { &guarded[..] } else { &nested };
        programs.push((0..rounds).flat_map(|_| section(random, task, locks, !plain)).collect());
    }
    if plain {
        return programs.concat();
    }
    let stay = random.pick(&[50, 90, 100]);
    interleave(random, programs, stay, limit.max(6 * size))
}

/// Task 0 nests pairs of locks round after round, and the other tasks nest them the other way; at
/// times all of them hold one more lock as a guard.
fn crossing(random: &mut Random, limit: usize) -> Vec<Event> {
    let big = limit >= 100;
    let tasks = if big { random.between(2, TASKS) } else { random.between(2, 3) };
    let pairs = if big { random.between(1, LOCKS / 2 - 1) } else { random.between(1, 2) };
    let most_rounds = (limit / (4 * pairs)).saturating_sub(tasks - 1).max(1);
    let rounds = if random.chance(50) { most_rounds } else { random.between(1, most_rounds) };
    let guarded = random.chance(15);
    let noisy = random.chance(40);
    let mut programs: Vec<Vec<Event>> = vec![Vec::new(); tasks];
    for (task, program) in programs.iter_mut().enumerate() {
        for pair in (0..if task == 0 { rounds } else { 1 }).flat_map(|_| 0..pairs) {
            let guard = 2 * pairs;
            let (one, other) = (2 * pair + usize::from(task > 0), 2 * pair + usize::from(task == 0));
            let locks = [guard, one, other];
            program.extend(section(random, task, &locks[usize::from(!guarded)..], noisy));
        }
    }
    let stay = if noisy { random.pick(&[50, 90]) } else { 100 };
    interleave(random, programs, stay, limit)
}

/// Each task runs sections of a few locks, in order or shuffled.
fn sections(random: &mut Random, limit: usize) -> Vec<Event> {
    let tasks = if limit < 100 { random.between(2, 4) } else { random.between(2, TASKS) };
    let locks = if limit < 100 { random.between(2, 6) } else { random.between(12, LOCKS) };
    let shuffled = if limit < 100 { random.pick(&[20, 70, 100]) } else { random.pick(&[0, 3, 10]) };
    let mut programs: Vec<Vec<Event>> = vec![Vec::new(); tasks];
    while programs.iter().map(Vec::len).sum::<usize>() < limit {
        let task = random.below(tasks);
        let mut chosen = random.permutation(locks);
        chosen.truncate(random.between(1, 3));
        if !random.chance(shuffled) {
            chosen.sort();
        }
        let noisy = random.chance(50);
        programs[task].extend(section(random, task, &chosen, noisy));
    }
    let stay = random.pick(&[40, 80, 95, 100]);
    interleave(random, programs, stay, limit)
}

/// One task takes the locks in turn and releases them backwards, perhaps with accesses between.
fn section(random: &mut Random, task: usize, locks: &[usize], noisy: bool) -> Vec<Event> {
    let takes = locks.iter().map(|&lock| Event::acquire(task, lock));
    let plain = takes.chain(locks.iter().rev().map(|&lock| Event::release(task, lock)));
    let mut events = Vec::new();
    for event in plain {
        events.push(event);
        if noisy && random.chance(30) {
            events.push(access(random, task, 3));
        }
    }
    events
}

/// Runs the tasks' programs in turns, until all have ended, none can go on, or there are enough events.
fn interleave(random: &mut Random, programs: Vec<Vec<Event>>, stay: usize, limit: usize) -> Vec<Event> {
    let mut builder = Builder::new();
    let mut done = vec![0; programs.len()];
    let mut task = 0;
    while builder.events.len() < limit {
        let can_go_on = |&t: &usize| programs[t].get(done[t]).is_some_and(|&event| builder.can_take(event));
        let ready: Vec<usize> = (0..programs.len()).filter(can_go_on).collect();
        if ready.is_empty() {
            break;
        }
        if !ready.contains(&task) || !random.chance(stay) {
            task = random.pick(&ready);
        }
        builder.take(programs[task][done[task]]);
        done[task] += 1;
    }
    builder.events
}
