//! The calls of 01, each complete by itself: questions, result and lent bytes.

use crate::closure::{put_into_set, set_has, Closure};
use crate::locks::Locks;
use crate::patterns::{closure_of_predecessors, is_deadlock, is_pattern, Search};
use crate::recording::{bytes_from, numbers_from, Recording, Refusal};
use crate::relations::Relations;
use crate::schedule::Schedule;
use std::cmp::Ordering;

/// 01: "A success has number 0 and event 0, which is all that the check of a recording returns."
pub fn check(recording: &[u8]) -> Result<(), Refusal> {
    Recording::read(recording).map(|_| ())
}

/// 01: "For one event number: the held locks [...]; the match; the writer; the predecessor."
pub fn relations(recording: &[u8], event: u64) -> Result<Relations, Refusal> {
    let recording = Recording::read(recording)?;
    if event < 1 || event > recording.count() as u64 {
        return Err(Refusal::without_event(9));
    }
    Ok(*recording.relations(event as usize))
}

/// 01: "h counts the events after which some task holds it; the result is 100 × h / n, rounded to
/// nearest, [...]; 0 if n = 0."; 02, job 8: "The lamp trade's load sheets moved to rounding halves to
/// the even per cent. Load follows".
pub fn load(recording: &[u8], lock: u64) -> Result<u64, Refusal> {
    let (h, n) = held_of_all(recording, lock)?;
    Ok(if n == 0 { 0 } else { rounded_per_cent(h, n) })
}

/// 100 × h / n, "rounded to nearest", with "rounding halves to the even per cent"; n is not 0.
fn rounded_per_cent(h: u64, n: u64) -> u64 {
    let (whole, left_over) = (100 * h / n, 100 * h % n);
    match (2 * left_over).cmp(&n) {
        Ordering::Less => whole,
        Ordering::Greater => whole + 1,
        Ordering::Equal if whole % 2 == 0 => whole,
        Ordering::Equal => whole + 1,
    }
}

/// The numbers h and n of a load: the events after which some task holds the lock, and all events.
pub fn held_of_all(recording: &[u8], lock: u64) -> Result<(u64, u64), Refusal> {
    let recording = Recording::read(recording)?;
    if lock > 63 {
        return Err(Refusal::without_event(14));
    }
    Ok((events_with_lock_held(&recording, lock as usize), recording.count() as u64))
}

/// "h counts the events after which some task holds it", at whatever depth.
fn events_with_lock_held(recording: &Recording, lock: usize) -> u64 {
    let mut locks = Locks::all_free();
    let mut count = 0;
    for event in (1..=recording.count()).map(|number| recording.event(number)) {
        locks.pass(event);
        count += u64::from(locks.holder(lock).is_some());
    }
    count
}

/// 01: "The call replaces a lent set by its closure and returns how many events were added."
pub fn close(recording: &[u8], set: &mut [u8]) -> Result<u64, Refusal> {
    let recording = Recording::read(recording)?;
    let n = recording.count();
    if set.len() != n.div_ceil(8) {
        return Err(Refusal::without_event(11));
    }
    if (n + 1..=8 * set.len()).any(|bit| set_has(set, bit)) {
        return Err(Refusal::without_event(12));
    }
    let given: Vec<usize> = (1..=n).filter(|&event| set_has(set, event)).collect();
    let closed = Closure::of(&recording, &given).events();
    closed.iter().for_each(|&event| put_into_set(set, event));
    Ok((closed.len() - given.len()) as u64)
}

/// 01: "The result carries the number of patterns, one for each entry, and of bytes written".
#[derive(Clone, Copy, Debug, PartialEq, Eq)]
pub struct Listed {
    pub patterns: u64,
    pub bytes: u64,
}

/// 01: "All patterns up to the largest size that demand 2 selects, sorted, smaller first, by the
/// first event number that differs (no pattern begins another)."
pub fn list(recording: &[u8], size: u64, out: &mut [u8]) -> Result<Listed, Refusal> {
    let recording = Recording::read(recording)?;
    let largest = largest_size(size)?;
    let mut patterns = 0;
    let mut entries = Vec::new();
    let room = out.len();
    let fits = Search::new(&recording, largest).deadlocks(&mut |pattern| {
        patterns += 1;
        entries.extend(entry(pattern));
        entries.len() <= room
    });
    if !fits {
        return Err(Refusal::without_event(13));
    }
    out[..entries.len()].copy_from_slice(&entries);
    Ok(Listed { patterns, bytes: entries.len() as u64 })
}

/// Question 8: "Is the largest size 0, or 2 to 16? No: 8."; 02, job 5: "From now on 0 stands for 16."
fn largest_size(size: u64) -> Result<usize, Refusal> {
    match size {
        0 => Ok(16),
        2..=16 => Ok(size as usize),
        _ => Err(Refusal::without_event(8)),
    }
}

/// "size, then the events, every one of these numbers in two bytes"
fn entry(pattern: &[usize]) -> Vec<u8> {
    let mut bytes = bytes_from(&[pattern.len()]);
    bytes.extend(bytes_from(pattern));
    bytes
}

/// Question 10: "Is the lent pattern (two bytes an event number) a deadlock pattern of this
/// recording, smallest event first? No: 10."
fn lent_pattern(recording: &Recording, bytes: &[u8]) -> Result<Vec<usize>, Refusal> {
    let pattern = numbers_from(bytes);
    if bytes.len() % 2 == 1 || !is_pattern(recording, &pattern) {
        return Err(Refusal::without_event(10));
    }
    Ok(pattern)
}

/// 01: "the verdict call says which for a lent pattern".
pub fn verdict(recording: &[u8], pattern: &[u8]) -> Result<bool, Refusal> {
    let recording = Recording::read(recording)?;
    let pattern = lent_pattern(&recording, pattern)?;
    Ok(is_deadlock(&recording, &pattern))
}

/// 01: "returns the number of bytes written; otherwise it says "not" and writes nothing".
#[derive(Clone, Copy, Debug, PartialEq, Eq)]
pub struct Witnessed {
    pub deadlock: bool,
    pub bytes: u64,
}

/// 01: "The witness call writes the closure of the predecessors in recording order, two bytes an
/// event, if the verdict is deadlock, and returns the number of bytes written".
pub fn witness(recording: &[u8], pattern: &[u8], out: &mut [u8]) -> Result<Witnessed, Refusal> {
    let recording = Recording::read(recording)?;
    let pattern = lent_pattern(&recording, pattern)?;
    if !is_deadlock(&recording, &pattern) {
        return Ok(Witnessed { deadlock: false, bytes: 0 });
    }
    let bytes = bytes_from(&closure_of_predecessors(&recording, &pattern).events());
    if bytes.len() > out.len() {
        return Err(Refusal::without_event(13));
    }
    out[..bytes.len()].copy_from_slice(&bytes);
    Ok(Witnessed { deadlock: true, bytes: bytes.len() as u64 })
}

/// 01: "says yes exactly if the schedule is order-keeping and leaves every pattern event next. An
/// odd length or an unknown number gives no."
pub fn schedule(recording: &[u8], pattern: &[u8], proposed: &[u8]) -> Result<bool, Refusal> {
    let recording = Recording::read(recording)?;
    let pattern = lent_pattern(&recording, pattern)?;
    if proposed.len() % 2 == 1 {
        return Ok(false);
    }
    Ok(match Schedule::new(&recording, numbers_from(proposed)) {
        None => false,
        Some(list) => list.is_order_keeping() && pattern.iter().all(|&event| list.leaves_next(event)),
    })
}

/// 01: "otherwise the listing gives its bytes written, always even".
pub fn c_list(recording: &[u8], size: u64, out: &mut [u8]) -> u64 {
    list(recording, size, out).map_or_else(refused_in_c, |listed| listed.bytes)
}

/// 01: "and the verdict 2 for deadlock, 0 for not".
pub fn c_verdict(recording: &[u8], pattern: &[u8]) -> u64 {
    verdict(recording, pattern).map_or_else(refused_in_c, |deadlock| if deadlock { 2 } else { 0 })
}

/// "when refused, 2 × (65,536 × refusal number + event) + 1, which is odd"
fn refused_in_c(refusal: Refusal) -> u64 {
    2 * (65_536 * refusal.number + refusal.event) + 1
}
