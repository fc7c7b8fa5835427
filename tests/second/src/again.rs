//! Locks taken again by their holder, 02, job 9, as statements about the calls.

use crate::calls::{check, load, relations, schedule, verdict};
use crate::recording::{bytes_from, Refusal};
use crate::rows::{closes, lists, row, witnesses, Statements};

/// A lock taken again, and then by another task.
const AGAIN: &str = "T0 a0 a0 r0 r0, T1 a0";
/// Two locks taken again and released in another order.
const CROSSWISE: &str = "T0 a0 a1 a0 a1 r0 r1 r1 r0";
/// Row A with its first locks at depth 2, and at depth 1 after an inner release.
const A_DEEPER: &str = "T0 a0 a0 a1 r1 r0 r0, T1 a1 a1 a0 r0 r1 r1";
const A_AFTER: &str = "T0 a0 a0 r0 a1 r1 r0, T1 a1 a1 r1 a0 r0 r1";
/// Row A with a pattern's lock taken again.
const A_TWICE: &str = "T0 a0 a1 a1 r1 r1 r0, T1 a1 a0 r0 r1";
/// Row D with its first lock at depth 1 after an inner release.
const D_AFTER: &str = "T0 a0 a0 r0 a1 r1 r0, T1 a0 r0 a1 a0 r0 r1";
/// Row A after a lock that another task took again and then task 0 took.
const A_GUARDED: &str = "T2 a2 a2 r2 r2, T0 a2 r2 a0 a1 r1 r0, T1 a1 a0 r0 r1";

/// The statements, each with its name and whether it holds.
pub fn statements() -> Statements {
    [relations_of_events(), questions(), depths(), patterns_and_schedules()].concat()
}

/// 02, job 9: "Only the acquire from depth 0 and the release to depth 0 count as acquire and release in
/// closure, match [...]; inner ones have match 0 and follow task order only. Held locks stay a set."
fn relations_of_events() -> Statements {
    vec![
        ("again: match of 1 is 4, of 4 is 1, of 2 and 3 is 0", matches(&row(AGAIN), &[4, 0, 0, 1, 0])),
        ("again: held locks of 2, 3 and 4", holds(&row(AGAIN), &[0, 1, 1, 1, 0])),
        ("again: closure of 1, 5", closes(&row(AGAIN), &[1, 5], &[1, 2, 3, 4, 5])),
        ("again: closure of 2, 5", closes(&row(AGAIN), &[2, 5], &[1, 2, 3, 4, 5])),
        ("again: closure of 2", closes(&row(AGAIN), &[2], &[1, 2])),
        ("again: closure of 3", closes(&row(AGAIN), &[3], &[1, 2, 3])),
        ("again: closure of 5", closes(&row(AGAIN), &[5], &[5])),
        ("again: load of lock 0", load(&row(AGAIN), 0) == Ok(80)),
        ("crosswise: matches", matches(&row(CROSSWISE), &[8, 7, 0, 0, 0, 0, 2, 1])),
        ("crosswise: held locks", holds(&row(CROSSWISE), &[0, 1, 3, 3, 3, 3, 3, 1])),
        ("crosswise: load of lock 1", load(&row(CROSSWISE), 1) == Ok(62)),
        ("never released: match 0", matches(&row("T0 a0 a0 r0"), &[0, 0, 0])),
    ]
}

/// 02, job 9: "Question 5 is "no" only where another task holds the lock"; question 6 is as it was.
fn questions() -> Statements {
    let gives = |text, number, event| check(&row(text)) == Err(Refusal { number, event });
    vec![
        ("again: accepted", check(&row(AGAIN)) == Ok(())),
        ("another's at depth 2: 5 at 3", gives("T0 a0 a0, T1 a0", 5, 3)),
        ("another's at depth 1 after an inner release: 5 at 4", gives("T0 a0 a0 r0, T1 a0", 5, 4)),
        ("another's release at depth 2: 6 at 3", gives("T0 a0 a0, T1 r0", 6, 3)),
        ("a release beyond the depth: 6 at 5", gives("T0 a0 a0 r0 r0 r0", 6, 5)),
    ]
}

/// The depth is as great as a recording permits.
fn depths() -> Statements {
    let gives = |recording: &[u8], number, event| check(recording) == Err(Refusal { number, event });
    let match_of = |recording: &[u8], event| relations(recording, event).map(|found| found.matching);
    let followed = |acquires, releases, text: &str| row(&format!("{}, {text}", tower(acquires, releases)));
    let deep = followed(300, 300, "T1 a0");
    vec![
        ("depth 300: match of 1 is 600", match_of(&deep, 1) == Ok(600)),
        ("depth 300: match of 300 is 0", match_of(&deep, 300) == Ok(0)),
        ("depth 300: match of 600 is 1", match_of(&deep, 600) == Ok(1)),
        ("depth 300: closure of 1, 601", closes(&deep, &[1, 601], &(1..=601).collect::<Vec<_>>())),
        ("depth 300: 5 after 299 releases", gives(&followed(300, 299, "T1 a0"), 5, 600)),
        ("depth 300: 6 after 300 releases", gives(&followed(300, 300, "T0 r0"), 6, 601)),
        ("depth 256: 5", gives(&followed(256, 0, "T1 a0"), 5, 257)),
        ("depth 256: a release", check(&followed(256, 1, "T0 W0")) == Ok(())),
        ("depth 4,095: accepted", check(&row(&tower(4095, 0))) == Ok(())),
        ("depth 4,095: load", load(&row(&tower(4095, 0)), 0) == Ok(100)),
        ("depth 2,047: match of 1", match_of(&row(&tower(2047, 2047)), 1) == Ok(4094)),
    ]
}

/// 02, job 9: "Only the acquire from depth 0 and the release to depth 0 count as acquire and release in [...]
/// schedules and patterns".
fn patterns_and_schedules() -> Statements {
    let is_valid = |text, pattern: &[usize], list: &[usize]| {
        schedule(&row(text), &bytes_from(pattern), &bytes_from(list)) == Ok(true)
    };
    let is_no_pattern = |text, pattern: &[usize]| {
        verdict(&row(text), &bytes_from(pattern)) == Err(Refusal::without_event(10))
    };
    let guarded = |list: &[usize]| is_valid(A_GUARDED, &[8, 12], list);
    vec![
        ("A deeper: listed", lists(&row(A_DEEPER), 0, &[&[3, 9]])),
        ("A deeper: witness", witnesses(&row(A_DEEPER), &[3, 9], &[1, 2, 7, 8])),
        ("A deeper: other turns", is_valid(A_DEEPER, &[3, 9], &[7, 1, 8, 2])),
        ("A deeper: an inner acquire missing", !is_valid(A_DEEPER, &[3, 9], &[1, 7, 8])),
        ("A deeper: an inner acquire too early", !is_valid(A_DEEPER, &[3, 9], &[2, 1, 7, 8])),
        ("A after inner releases: listed", lists(&row(A_AFTER), 0, &[&[4, 10]])),
        ("A after inner releases: witness", witnesses(&row(A_AFTER), &[4, 10], &[1, 2, 3, 7, 8, 9])),
        ("A taken twice: listed", lists(&row(A_TWICE), 0, &[&[2, 8]])),
        ("A taken twice: an inner acquire is of no pattern", is_no_pattern(A_TWICE, &[3, 8])),
        ("D after an inner release: empty", lists(&row(D_AFTER), 0, &[])),
        ("A guarded: witness", witnesses(&row(A_GUARDED), &[8, 12], &[5, 6, 7, 11])),
        ("A guarded: the lock is free", guarded(&[1, 2, 3, 4, 5, 6, 7, 11])),
        ("A guarded: the lock is at depth 1", !guarded(&[1, 2, 3, 5, 6, 7, 11])),
        ("A guarded: the lock is at depth 2", !guarded(&[1, 2, 5, 6, 7, 11])),
        ("A guarded: the release comes late", !guarded(&[1, 2, 3, 5, 4, 6, 7, 11])),
        ("A guarded: the acquires are turned round", !guarded(&[5, 6, 1, 2, 3, 4, 7, 11])),
    ]
}

/// A task that acquires lock 0 so often and then releases it so often, in 01's notation.
fn tower(acquires: usize, releases: usize) -> String {
    format!("T0{}{}", " a0".repeat(acquires), " r0".repeat(releases))
}

/// Whether these are the matches of all events in turn.
pub fn matches(recording: &[u8], expected: &[usize]) -> bool {
    let found = (1..=expected.len()).map(|event| relations(recording, event as u64).map(|x| x.matching));
    found.eq(expected.iter().map(|&event| Ok(event)))
}

/// Whether these are the masks of the held locks of all events in turn.
pub fn holds(recording: &[u8], expected: &[u64]) -> bool {
    let found = (1..=expected.len()).map(|event| relations(recording, event as u64).map(|x| x.held));
    found.eq(expected.iter().map(|&mask| Ok(mask)))
}
