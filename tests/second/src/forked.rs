//! Patterns and schedules with tasks that start tasks, 02, job 1, as statements about the calls.

use crate::calls::{schedule, verdict};
use crate::recording::{bytes_from, Refusal};
use crate::rows::{lists, row, witnesses, Statements};

/// Row A, not all of it, with a start at the end.
const A_THEN_FORK: &str = "T0 a0 a1 r1 r0, T1 a1 a0, T0 s2";
/// Row A between the starts and the joins of a main task.
const A_FORKED: &str = "T0 s1 s2, T1 a0 a1 r1 r0, T2 a1 a0 r0 r1, T0 j1 j2";
/// Row A with task 1 started or task 0 joined between the sections, and with both outside of them.
const A_FORK_BETWEEN: &str = "T0 a0 a1 r1 r0 s1, T1 a1 a0 r0 r1";
const A_JOIN_BETWEEN: &str = "T0 a0 a1 r1 r0, T1 j0 a1 a0 r0 r1";
const A_FORK_BEFORE: &str = "T0 s1 a0 a1 r1 r0, T1 a1 a0 r0 r1, T0 j1";
/// Row A with a start within task 0's outer section, before and after its inner one.
const A_FORK_INSIDE: &str = "T0 a0 s1 a1 r1 r0, T1 a1 a0 r0 r1";
const A_FORK_LATER: &str = "T0 a0 a1 r1 s1 r0, T1 a1 a0 r0 r1";
/// Row A, its tasks started by a task that joins another one between.
const A_AFTER_JOIN: &str = "T3 W0 W0, T0 s1 j3 s2, T1 a0 a1 r1 r0, T2 a1 a0 r0 r1";
/// The same with joins of a task that was started and has no events, and of one that was never started.
const A_AFTER_FORK: &str = "T3 s4, T0 s1 j4 s2, T1 a0 a1 r1 r0, T2 a1 a0 r0 r1";
const A_AFTER_NOTHING: &str = "T0 s1 j4 s2, T1 a0 a1 r1 r0, T2 a1 a0 r0 r1";
/// Row F's ring, each task started by the one before it.
const F_CHAIN: &str = "T0 s1 a0 a1 r1 r0, T1 s2 a1 a2 r2 r1, T2 a2 a0 r0 r2";
/// Row A's locks 0 and 2, but for a start or a join of task 2 instead of an acquire of lock 2.
const FORK_OF_2: &str = "T0 a0 s2 r0, T1 a2 a0 r0 r2";
const JOIN_OF_2: &str = "T0 a0 j2 r0, T1 a2 a0 r0 r2";
/// Locks at depth 2: row A with a start between outer and inner acquire, and with joins of another task and
/// of the pattern's other task while the lock is held twice.
const DEEP_FORK: &str = "T0 a0 s1 a0 a1 r1 r0 r0, T1 a1 a0 r0 r1";
const DEEP_JOIN: &str = "T2 W0, T0 a0 a0 j2 a1 r1 r0 r0, T1 a1 a0 r0 r1";
const DEEP_JOIN_OWN: &str = "T1 a1 a0 r0 r1, T0 a0 a0 j1 a1 r1 r0 r0";

/// The statements, each with its name and whether it holds.
pub fn statements() -> Statements {
    [patterns(), deep(), fork_schedules(), join_schedules()].concat()
}

fn is_no_pattern(text: &str, pattern: &[usize]) -> bool {
    verdict(&row(text), &bytes_from(pattern)) == Err(Refusal::without_event(10))
}

/// Whether the list is a pattern that is not listed.
fn is_kept_out(text: &str, pattern: &[usize]) -> bool {
    verdict(&row(text), &bytes_from(pattern)) == Ok(false) && lists(&row(text), 0, &[])
}

/// A start is no acquire; what a pattern's tasks were started after, or have joined, is in the closure.
fn patterns() -> Statements {
    vec![
        ("A then a start: listed", lists(&row(A_THEN_FORK), 0, &[&[2, 6]])),
        ("A then a start: witness", witnesses(&row(A_THEN_FORK), &[2, 6], &[1, 5])),
        ("A forked: listed", lists(&row(A_FORKED), 0, &[&[4, 8]])),
        ("A forked: witness", witnesses(&row(A_FORKED), &[4, 8], &[1, 2, 3, 7])),
        ("A with a start before: listed", lists(&row(A_FORK_BEFORE), 0, &[&[3, 7]])),
        ("A with a start before: witness", witnesses(&row(A_FORK_BEFORE), &[3, 7], &[1, 2, 6])),
        ("A with a start between: empty", is_kept_out(A_FORK_BETWEEN, &[2, 7])),
        ("A with a join between: empty", is_kept_out(A_JOIN_BETWEEN, &[2, 7])),
        ("A with a start inside: witness", witnesses(&row(A_FORK_INSIDE), &[3, 7], &[1, 2, 6])),
        ("A with a start later: empty", is_kept_out(A_FORK_LATER, &[2, 7])),
        ("A after a join: listed", lists(&row(A_AFTER_JOIN), 0, &[&[7, 11]])),
        ("A after a join: witness", witnesses(&row(A_AFTER_JOIN), &[7, 11], &[1, 2, 3, 4, 5, 6, 10])),
        ("F in a chain of starts: listed", lists(&row(F_CHAIN), 0, &[&[3, 8, 12]])),
        ("F in a chain of starts: witness", witnesses(&row(F_CHAIN), &[3, 8, 12], &[1, 2, 6, 7, 11])),
        ("a start is of no pattern", is_no_pattern(FORK_OF_2, &[2, 5])),
        ("a start is of no pattern: empty", lists(&row(FORK_OF_2), 0, &[])),
        ("a join is of no pattern", is_no_pattern(JOIN_OF_2, &[2, 5])),
    ]
}

/// With request 9: starts and joins at depth 2.
fn deep() -> Statements {
    vec![
        ("a start between outer and inner: listed", lists(&row(DEEP_FORK), 0, &[&[4, 9]])),
        ("a start between outer and inner: witness", witnesses(&row(DEEP_FORK), &[4, 9], &[1, 2, 3, 8])),
        ("a join at depth 2: listed", lists(&row(DEEP_JOIN), 0, &[&[5, 10]])),
        ("a join at depth 2: witness", witnesses(&row(DEEP_JOIN), &[5, 10], &[1, 2, 3, 4, 9])),
        ("a join of the other task at depth 2: empty", is_kept_out(DEEP_JOIN_OWN, &[2, 8])),
    ]
}

fn is_valid(text: &str, pattern: &[usize], list: &[usize]) -> bool {
    schedule(&row(text), &bytes_from(pattern), &bytes_from(list)) == Ok(true)
}

/// "A start comes before every event of its task [...]. A schedule lists them so, none missing."; a start
/// that no listed event needs is not missing.
fn fork_schedules() -> Statements {
    let forked = |list: &[usize]| is_valid(A_FORKED, &[4, 8], list);
    vec![
        ("A then a start: a schedule without it", is_valid(A_THEN_FORK, &[2, 6], &[1, 5])),
        ("A forked: the witness", forked(&[1, 2, 3, 7])),
        ("A forked: other turns", forked(&[1, 3, 2, 7])),
        ("A forked: a start too late", !forked(&[3, 1, 2, 7])),
        ("A forked: the other start too late", !forked(&[1, 3, 7, 2])),
        ("A forked: the starts turned round", !forked(&[2, 1, 3, 7])),
        ("A forked: a start missing", !forked(&[1, 3, 7])),
        ("A forked: a first event missing", !forked(&[1, 2, 3])),
        ("A with a start inside: the start missing", !is_valid(A_FORK_INSIDE, &[3, 7], &[1, 6])),
        ("A with a start between: no schedule", !is_valid(A_FORK_BETWEEN, &[2, 7], &[1, 6])),
        ("A with a start between: nor with it", !is_valid(A_FORK_BETWEEN, &[2, 7], &[1, 5, 6])),
        ("a start between outer and inner: valid", is_valid(DEEP_FORK, &[4, 9], &[1, 2, 8, 3])),
        ("a start between outer and inner: too late", !is_valid(DEEP_FORK, &[4, 9], &[1, 8, 2, 3])),
    ]
}

/// "a join after all of them and after the start. A schedule lists them so, none missing."
fn join_schedules() -> Statements {
    let after_join = |list: &[usize]| is_valid(A_AFTER_JOIN, &[7, 11], list);
    let after_fork = |list: &[usize]| is_valid(A_AFTER_FORK, &[6, 10], list);
    vec![
        ("A after a join: the witness", after_join(&[1, 2, 3, 4, 5, 6, 10])),
        ("A after a join: other turns", after_join(&[3, 6, 1, 2, 4, 5, 10])),
        ("A after a join: before the last event", !after_join(&[1, 3, 4, 2, 5, 6, 10])),
        ("A after a join: before all events", !after_join(&[3, 4, 1, 2, 5, 6, 10])),
        ("A after a join: the last event missing", !after_join(&[1, 3, 4, 5, 6, 10])),
        ("A after a join: all events missing", !after_join(&[3, 4, 5, 6, 10])),
        ("A after a join without events: valid", after_fork(&[2, 1, 3, 4, 5, 9])),
        ("A after a join without events: before the start", !after_fork(&[2, 3, 1, 4, 5, 9])),
        ("A after a join without events: no start", !after_fork(&[2, 3, 4, 5, 9])),
        ("A after a join of nothing: valid", is_valid(A_AFTER_NOTHING, &[5, 9], &[1, 2, 3, 4, 8])),
        ("A with a join between: no schedule", !is_valid(A_JOIN_BETWEEN, &[2, 7], &[1, 5, 6])),
        ("a join at depth 2: valid", is_valid(DEEP_JOIN, &[5, 10], &[9, 2, 3, 1, 4])),
        ("a join at depth 2: too early", !is_valid(DEEP_JOIN, &[5, 10], &[9, 2, 3, 4, 1])),
    ]
}
