//! Random requests over all calls, recordings, arguments and refusals.

use crate::arguments::{event, lock, room, set, size};
use crate::calls::{self, Listed};
use crate::damage::{damage, misuse_lock};
use crate::lent_patterns::{changed_pattern, false_pattern, pattern_with_verdict};
use crate::loads::{event_count, events_with_load, held_count};
use crate::misuse::misuse_task;
use crate::patterns::closure_of_predecessors;
use crate::proposals::schedule;
use crate::protocol::hexadecimal;
use crate::random::Random;
use crate::recording::{bytes_from, encode, Event, Recording, Refusal, LOCKS};
use crate::shapes::{any_events, Class};

/// The most bytes that are lent.
const MOST_ROOM: usize = 65_536;

/// A well-formed recording, and its bytes as a request sends them: as they are, or damaged.
struct Scene {
    recording: Recording,
    bytes: Vec<u8>,
    sent: String,
}

/// So many requests in a row, the same ones for the same seed.
pub fn requests(seed: u64, count: u64) -> impl Iterator<Item = String> {
    let mut random = Random::new(seed);
    (0..count).map(move |_| request(&mut random))
}

/// One request, or now and then a line that is none.
fn request(random: &mut Random) -> String {
    match random.below(200) {
        0..=11 => check(random),
        12..=33 => relations(random),
        34..=49 => load(random),
        50..=77 => close(random),
        78..=115 => list(random, "list"),
        116..=127 => list(random, "clist"),
        128..=147 => verdict(random, "verdict"),
        148..=157 => verdict(random, "cverdict"),
        158..=173 => witness(random),
        174..=198 => propose_schedule(random),
        _ => malformed(random),
    }
}

/// A size of recording, mostly small.
fn class(random: &mut Random) -> Class {
    match random.below(1000) {
        0..=24 => Class::Tiny,
        25..=64 => Class::Middle,
        65..=76 => Class::Large,
        77..=84 => Class::Full,
        _ => Class::Small,
    }
}

/// A recording, damaged in so many per cent of the cases.
fn scene(random: &mut Random, class: Class, damaged: usize) -> Scene {
    let events = any_events(random, class);
    scene_of(random, &events, damaged)
}

/// The recording of these events, in so many per cent of the cases damaged once or more, and in half as many
/// more each with a lock or a task misused.
fn scene_of(random: &mut Random, events: &[Event], damaged: usize) -> Scene {
    let bytes = encode(events);
    let recording = Recording::read(&bytes).unwrap_or_else(|refusal| panic!("ill-formed: {refusal:?}"));
    let mut sent = bytes.clone();
    for misuse in [misuse_lock, misuse_task] {
        if random.chance(damaged / 2) {
            let mut misused = events.to_vec();
            misuse(random, &mut misused);
            sent = encode(&misused);
        }
    }
    while random.chance(damaged) {
        damage(random, &mut sent);
    }
    Scene { recording, bytes, sent: hexadecimal(&sent) }
}

fn any_scene(random: &mut Random) -> Scene {
    let class = class(random);
    scene(random, class, 6)
}

fn check(random: &mut Random) -> String {
    let class = class(random);
    format!("check {}", scene(random, class, 45).sent)
}

fn relations(random: &mut Random) -> String {
    let scene = any_scene(random);
    format!("relations {} {}", scene.sent, event(random, &scene.recording))
}

/// A load of any recording, or of one made for its load.
fn load(random: &mut Random) -> String {
    if random.chance(50) {
        return chosen_load(random);
    }
    let scene = any_scene(random);
    format!("load {} {}", scene.sent, lock(random, &scene.recording))
}

/// A load that is mostly at a half per cent or next to one.
fn chosen_load(random: &mut Random) -> String {
    let n = event_count(random);
    let h = held_count(random, n);
    let lock = random.below(LOCKS);
    let events = events_with_load(random, lock, h, n);
    format!("load {} {}", scene_of(random, &events, 4).sent, lock)
}

fn close(random: &mut Random) -> String {
    let scene = any_scene(random);
    format!("close {} {}", scene.sent, hexadecimal(&set(random, &scene.recording)))
}

/// A listing into room that is exact, short, longer or none.
fn list(random: &mut Random, call: &str) -> String {
    let size = size(random);
    let (scene, listed) = scene_to_list(random, size);
    let room = match listed {
        Ok(listed) => room(random, listed.bytes as usize),
        Err(_) => random.pick(&[0, 5, 6, 100, 1000, 4000, MOST_ROOM - 1, MOST_ROOM]),
    };
    format!("{} {} {} {}", call, scene.sent, size, lent(random, room))
}

/// A recording, mostly one with some patterns listed, or a longer one with a thousand, and its listing.
fn scene_to_list(random: &mut Random, size: u64) -> (Scene, Result<Listed, Refusal>) {
    let class = match random.below(100) {
        0..=5 => Class::Middle,
        6..=7 => Class::Full,
        _ => class(random),
    };
    let wanted = if class == Class::Small { 1 } else { random.pick(&[1, 1000]) };
    let mut tries_left = 4;
    loop {
        let scene = scene(random, class, 6);
        let listed = calls::list(&scene.bytes, size, &mut [0; MOST_ROOM]);
        let is_poor = listed.is_ok_and(|listed| listed.patterns < wanted);
        if !is_poor || tries_left == 0 || random.chance(25) {
            return (scene, listed);
        }
        tries_left -= 1;
    }
}

/// Lent bytes of any contents, as text.
fn lent(random: &mut Random, room: usize) -> String {
    hexadecimal(&random.bytes(room.min(MOST_ROOM)))
}

/// A recording with a pattern of it, mostly, if one of a few recordings has any of the verdict wanted,
/// which is deadlock in so many per cent of the cases.
fn scene_with_pattern(random: &mut Random, deadlocks: usize) -> (Scene, Option<Vec<usize>>) {
    let class = class(random);
    let deadlock = random.chance(deadlocks);
    let mut tries_left = 10;
    loop {
        let scene = scene(random, class, 4);
        let pattern = pattern_with_verdict(random, &scene.recording, deadlock);
        if pattern.is_some() || tries_left == 0 || random.chance(12) {
            return (scene, pattern);
        }
        tries_left -= 1;
    }
}

/// The bytes of the pattern to lend: the true one, a changed one, or a guess.
fn lent_pattern(
    random: &mut Random,
    scene: &Scene,
    pattern: &Option<Vec<usize>>,
    unchanged: usize,
) -> String {
    hexadecimal(&match pattern {
        Some(list) if random.chance(unchanged) => bytes_from(list),
        Some(list) if random.chance(65) => changed_pattern(random, list, &scene.recording),
        _ => bytes_from(&false_pattern(random, &scene.recording)),
    })
}

fn verdict(random: &mut Random, call: &str) -> String {
    let (scene, pattern) = scene_with_pattern(random, 55);
    format!("{} {} {}", call, scene.sent, lent_pattern(random, &scene, &pattern, 60))
}

fn witness(random: &mut Random) -> String {
    let (scene, pattern) = scene_with_pattern(random, 55);
    let lent_pattern = lent_pattern(random, &scene, &pattern, 80);
    let events = closure_of_predecessors(&scene.recording, &pattern.unwrap_or_default()).events();
    let room = room(random, 2 * events.len());
    format!("witness {} {} {}", scene.sent, lent_pattern, lent(random, room))
}

fn propose_schedule(random: &mut Random) -> String {
    let (scene, pattern) = scene_with_pattern(random, 80);
    let lent_pattern = lent_pattern(random, &scene, &pattern, 93);
    let proposed = schedule(random, &pattern.unwrap_or_default(), &scene.recording);
    format!("schedule {} {} {}", scene.sent, lent_pattern, hexadecimal(&proposed))
}

/// A line that is no request.
fn malformed(random: &mut Random) -> String {
    const LINES: [&str; 30] = [
        "",
        " ",
        "check",
        "check ",
        "check 100",
        "check 10AB",
        "check 10 00",
        "check  1000",
        " check 1000",
        "check 1000 ",
        "Check 1000",
        "check 0x1000",
        "check 10g0",
        "check --",
        "load 1000",
        "load 1000 00",
        "load 1000 +1",
        "load 1000 -1",
        "load 1000 -",
        "load 1000 1a",
        "load 1000 18446744073709551616",
        "load 1000 99999999999999999999",
        "load 1000 01",
        "relations 1000 1.0",
        "list 1000 2",
        "list 1000 2 a",
        "list 1000 2 - -",
        "close 1000",
        "report 1000",
        "verdict 1000 0002000",
    ];
    random.pick(&LINES).to_string()
}
