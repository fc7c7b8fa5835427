//! Names for what is wrong with a proposed schedule at a start or a join.

use crate::recording::Event;

/// The numbers of a task's events.
fn numbers_of(events: &[Event], task: usize) -> Vec<usize> {
    (1..=events.len()).filter(|&number| events[number - 1].task == task).collect()
}

/// The name of what is wrong with this start in a list of event numbers, if anything is.
pub fn fault_at_fork(list: &[usize], events: &[Event], fork: usize) -> Option<&'static str> {
    let place = |number: usize| list.iter().position(|&listed| listed == number);
    let first = numbers_of(events, events[fork - 1].object).into_iter().filter_map(place).min()?;
    match place(fork) {
        None => Some("schedules with a start missing"),
        Some(late) if late > first => Some("schedules with a start too late"),
        _ => None,
    }
}

/// The name of what is wrong with this join in a list of event numbers, if anything is.
pub fn fault_at_join(list: &[usize], events: &[Event], join: usize) -> Option<&'static str> {
    let place = |number: usize| list.iter().position(|&listed| listed == number);
    let at = place(join)?;
    let joined = events[join - 1].object;
    let is_fork = |&number: &usize| events[number - 1] == Event::fork(events[number - 1].task, joined);
    let own = numbers_of(events, joined);
    let needed = own.iter().copied().chain((1..=events.len()).filter(is_fork));
    let places: Vec<Option<usize>> = needed.map(place).collect();
    match places.iter().all(|&place| place.is_some_and(|place| place < at)) {
        true => None,
        false if own.is_empty() => Some("schedules with a join before its task's start"),
        false if places.contains(&None) => Some("schedules with an event of a join missing"),
        false => Some("schedules with a join too early"),
    }
}
