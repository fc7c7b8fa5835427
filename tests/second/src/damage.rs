//! Damage to a recording: to its locks, and to its bytes; to its starts and joins it is in `misuse`.

use crate::locks::outer_events;
use crate::random::Random;
use crate::recording::{Event, Operation, TASKS, VARIABLES};
use crate::shapes::LONGEST;

/// Changes a well-formed recording at an acquire or release, mostly an inner one: another task acquires or
/// releases the lock after it, its own task releases it once more, or a release is missing; if nothing is
/// refused there, then mostly later.
pub fn misuse_lock(random: &mut Random, events: &mut Vec<Event>) {
    let outer = outer_events(events);
    let with_lock: Vec<usize> = (0..events.len()).filter(|&at| events[at].uses_lock()).collect();
    let inner: Vec<usize> = with_lock.iter().copied().filter(|&at| !outer[at]).collect();
    let places = if inner.is_empty() || random.chance(15) { with_lock } else { inner };
    if places.is_empty() {
        return;
    }
    let at = random.pick(&places);
    let Event { operation, task, object } = events[at];
    let other = (task + random.between(1, TASKS - 1)) % TASKS;
    match random.below(6) {
        0..=2 => events.insert(at + 1, Event::acquire(other, object)),
        3 => events.insert(at + 1, Event::release(other, object)),
        4 if operation == Operation::Release => drop(events.remove(at)),
        _ => events.insert(at + 1, Event::release(task, object)),
    }
    events.truncate(LONGEST);
}

/// Damages the bytes of a recording in one of many ways, most of which make it ill-formed.
pub fn damage(random: &mut Random, bytes: &mut Vec<u8>) {
    if bytes.len() < 2 {
        return;
    }
    match random.below(10) {
        0..=1 => flip_bits(random, bytes),
        2 => bytes.truncate(random.below(bytes.len())),
        3 => bytes.truncate(random.below(2)),
        4 => {
            let added = random.between(1, 4);
            bytes.extend(random.bytes(added));
        }
        5 => bytes[..2].copy_from_slice(&(0x1000 | random.below(4096) as u16).to_be_bytes()),
        6 => bytes[0] = (bytes[0] & 15) | (random.below(16) << 4) as u8,
        _ => replace_events(random, bytes),
    }
}

fn flip_bits(random: &mut Random, bytes: &mut [u8]) {
    for _ in 0..random.between(1, 3) {
        let bit = random.below(8 * bytes.len());
        bytes[bit / 8] ^= 128 >> (bit % 8);
    }
}

/// Replaces a few events by any others, most of them of low objects.
fn replace_events(random: &mut Random, bytes: &mut [u8]) {
    let count = bytes.len() / 2 - 1;
    for _ in 0..random.between(1, 3).min(count) {
        let at = 2 + 2 * random.below(count);
        let objects = random.pick(&[3, 6, 64, 80, 84, VARIABLES]);
        let event = Event::unpack(random.below(65_536) & !1023 | random.below(objects));
        bytes[at..at + 2].copy_from_slice(&(event.pack() as u16).to_be_bytes());
    }
}
