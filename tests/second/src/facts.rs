//! That closures and schedules meet, tried on small recordings with starts and joins: the sets of
//! order-keeping schedules are the closed ones.

use crate::closure::Closure;
use crate::draws::draws_of_few;
use crate::forking::with_forks;
use crate::patterns::{is_deadlock, Search};
use crate::protocol::{events_of, hexadecimal};
use crate::random::Random;
use crate::recording::{encode, Recording};
use crate::rows::row;
use crate::schedule::Schedule;
use std::collections::BTreeSet;

/// Adds the sets of all order-keeping schedules that begin with this one.
fn add_sets(recording: &Recording, list: &mut Vec<usize>, sets: &mut BTreeSet<Vec<usize>>) {
    let schedule = Schedule::new(recording, list.clone()).unwrap();
    if !schedule.is_order_keeping() {
        return;
    }
    let mut set = list.clone();
    set.sort();
    sets.insert(set.clone());
    for event in (1..=recording.count()).filter(|event| !set.contains(event)) {
        list.push(event);
        add_sets(recording, list, sets);
        list.pop();
    }
}

#[test]
fn sets_of_schedules_are_the_closed_sets() {
    let random = &mut Random::new(29);
    let mut joins = 0;
    for _ in 0..150 {
        let recording = Recording::read(&encode(&draws_of_few(random, 7))).ok().unwrap();
        let mut sets = BTreeSet::new();
        add_sets(&recording, &mut Vec::new(), &mut sets);
        for bits in 0..1 << recording.count() {
            let set: Vec<usize> = (1..=recording.count()).filter(|e| bits >> (e - 1) & 1 == 1).collect();
            let is_closed = Closure::of(&recording, &set).events() == set;
            assert_eq!(sets.contains(&set), is_closed, "{set:?}");
        }
        joins += (1..=recording.count()).filter(|&e| recording.relations(e).awaited != 0).count();
    }
    assert!(joins > 50);
}

#[test]
fn deadlocks_are_the_patterns_with_a_schedule() {
    let random = &mut Random::new(31);
    let crossing = events_of(&hexadecimal(&row("T0 a0 a1 r1 r0, T1 a1 a0"))).unwrap();
    let mut seen = [0, 0];
    for _ in 0..500 {
        let mut events = with_forks(random, crossing.clone(), false);
        events.truncate(11);
        let recording = Recording::read(&encode(&events)).ok().unwrap();
        let mut sets = BTreeSet::new();
        add_sets(&recording, &mut Vec::new(), &mut sets);
        Search::new(&recording, 16).patterns(&mut |pattern| {
            let reaches = |set: &Vec<usize>| {
                let schedule = Schedule::new(&recording, set.clone()).unwrap();
                pattern.iter().all(|&event| schedule.leaves_next(event))
            };
            let deadlock = is_deadlock(&recording, pattern);
            assert_eq!(sets.iter().any(reaches), deadlock, "{events:?}");
            seen[usize::from(deadlock)] += 1;
            true
        });
    }
    assert!(seen.iter().all(|&count| count > 50), "{seen:?}");
}
