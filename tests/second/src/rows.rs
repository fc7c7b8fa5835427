//! Rows A to K of 01 and the sizes of a listing, as the requests of 02 have changed them, as statements about
//! the calls; locks taken again by their holder are in `again`, starts and joins in `forks` and `forked`.

use crate::again;
use crate::calls::{check, close, list, load, schedule, verdict, witness, Listed, Witnessed};
use crate::closure::put_into_set;
use crate::forked;
use crate::forks;
use crate::protocol::hexadecimal;
use crate::recording::{bytes_from, encode, Event, Operation, Refusal};

/// The rows in 01's notation: "T0 a1 means task 0 acquires lock 1; r releases; W and R write and
/// read a variable".
const A: &str = "T0 a0 a1 r1 r0, T1 a1 a0 r0 r1";
const B: &str = "T0 a2 a0 a1 r1 r0 r2, T1 a2 a1 a0 r0 r1 r2";
const C: &str = "T0 a0 a1 W0 r1 r0, T1 a1 R0 a0 r0 r1";
const D: &str = "T0 a0 a1 r1 r0, T1 a0 r0 a1 a0 r0 r1";
const E: &str = "T0 a0 a1 r1 r0, T1 a1 r1 a1 a0 r0 r1";
const F: &str = "T0 a0 a1 r1 r0, T2 a2 a0 r0 r2, T1 a1 a2 r2 r1";
const G: &str = "T0 a0 r0 W0 W0 W0 W0 W0 W0";

/// The names of the rows' statements that fail, 01: "Rows A to K are proved together, from the
/// definitions, as a single tabulated fact"; a row that a request of 02 has changed is as it is there.
pub fn failing() -> Vec<&'static str> {
    let rows = [row_a(), row_b_to_d(), row_e(), row_f(), sizes(), row_g(), row_h_to_k()].concat();
    let statements = [rows, again::statements(), forks::statements(), forked::statements()].concat();
    statements.into_iter().filter(|(_, holds)| !holds).map(|(name, _)| name).collect()
}

pub type Statements = Vec<(&'static str, bool)>;

fn row_a() -> Statements {
    let text = "100880008001c001c00084018400c400c401";
    vec![
        ("A: in hexadecimal", hexadecimal(&row(A)) == text),
        ("A: listed", lists(&row(A), 0, &[&[2, 6]])),
        ("A: verdict", verdict(&row(A), &bytes_from(&[2, 6])) == Ok(true)),
        ("A: witness", witnesses(&row(A), &[2, 6], &[1, 5])),
        ("A: load of lock 0", load(&row(A), 0) == Ok(50)),
    ]
}

fn row_b_to_d() -> Statements {
    vec![
        ("B: empty", lists(&row(B), 0, &[])),
        ("B: common guard", verdict(&row(B), &bytes_from(&[3, 9])) == Err(Refusal::without_event(10))),
        ("C: closure", closes(&row(C), &[1, 7], &[1, 2, 3, 4, 6, 7])),
        ("C: empty", lists(&row(C), 0, &[])),
        ("D: empty", lists(&row(D), 0, &[])),
    ]
}

fn row_e() -> Statements {
    let (pattern, proposed) = (bytes_from(&[2, 8]), bytes_from(&[1, 5, 6, 7]));
    vec![
        ("E: listed", lists(&row(E), 0, &[&[2, 8]])),
        ("E: witness", witnesses(&row(E), &[2, 8], &[1, 5, 6, 7])),
        ("E: the checker says yes", schedule(&row(E), &pattern, &proposed) == Ok(true)),
    ]
}

fn row_f() -> Statements {
    vec![
        ("F: listed with size 3", lists(&row(F), 3, &[&[2, 10, 6]])),
        ("F: eight bytes", list(&row(F), 3, &mut [7; 8]) == Ok(Listed { patterns: 1, bytes: 8 })),
        ("F: seven bytes", refuses_unchanged(13, &row(F), 3, 7)),
        ("F: size 2 is empty", lists(&row(F), 2, &[])),
        ("F: listed with size 0", lists(&row(F), 0, &[&[2, 10, 6]])),
        ("F: seven bytes with size 0", refuses_unchanged(13, &row(F), 0, 7)),
    ]
}

/// 02, job 5: "A four-task deadlock between radio and metering was missing because the size had been left
/// at 0. From now on 0 stands for 16."; the sizes that question 8 permits are as they were.
fn sizes() -> Statements {
    let lists_ring = |tasks: usize, size| lists(&ring(tasks), size, &[&ring_pattern(tasks)]);
    let lists_nothing = |tasks: usize, size| lists(&ring(tasks), size, &[]);
    let accepted = |size| list(&ring(4), size, &mut [7; 100]).is_ok();
    let refused = |size| refuses_unchanged(8, &ring(4), size, 100);
    vec![
        ("four tasks: listed with size 0", lists_ring(4, 0)),
        ("four tasks: listed with size 4", lists_ring(4, 4)),
        ("four tasks: size 3 is empty", lists_nothing(4, 3)),
        ("sixteen tasks: listed with size 0", lists_ring(16, 0)),
        ("sixteen tasks: listed with size 16", lists_ring(16, 16)),
        ("sixteen tasks: size 15 is empty", lists_nothing(16, 15)),
        ("sixteen tasks: 33 bytes with size 0", refuses_unchanged(13, &ring(16), 0, 33)),
        ("size: 0 and 2 to 16 are accepted", accepted(0) && (2..=16).all(accepted)),
        ("size: 1 gives 8", refused(1)),
        ("size: 17 gives 8", refused(17)),
        ("size: 2 to the 32 gives 8", refused(1 << 32)),
    ]
}

/// 02, job 8: "row G becomes 12, and 13.5 becomes 14"; and loads at other halves, between and at the ends.
fn row_g() -> Statements {
    let loads = |h, n, per_cent| load(&held(h, n), 0) == Ok(per_cent);
    vec![
        ("G: load of lock 0", load(&row(G), 0) == Ok(12)),
        ("G: 13.5 becomes 14", loads(27, 200, 14)),
        ("load: 0.5 gives 0", loads(1, 200, 0)),
        ("load: 1.5 gives 2", loads(3, 200, 2)),
        ("load: 37.5 gives 38", loads(3, 8, 38)),
        ("load: 99.5 gives 100", loads(199, 200, 100)),
        ("load: 1 of 3 gives 33", loads(1, 3, 33)),
        ("load: 2 of 3 gives 67", loads(2, 3, 67)),
        ("load: all of 7 gives 100", loads(7, 7, 100)),
        ("load: no events gives 0", loads(0, 0, 0)),
    ]
}

/// 02, job 1: "Row I's first recording then gives 15 at 1, and 10 01 80 50 gives 4."; job 9: "row J is then
/// accepted".
fn row_h_to_k() -> Statements {
    let refused = |number, event| Err(Refusal { number, event });
    vec![
        ("H: accepted", check(&[0x10, 0x00]) == Ok(())),
        ("H: empty", lists(&[0x10, 0x00], 0, &[])),
        ("I: 15 at 1", check(&[0x10, 0x01, 0x80, 0x40]) == refused(15, 1)),
        ("I: 4 at 1 from object 80", check(&[0x10, 0x01, 0x80, 0x50]) == refused(4, 1)),
        ("I: accepted", check(&[0x10, 0x01, 0x80, 0x3f]) == Ok(())),
        ("J: accepted", check(&[0x10, 0x02, 0x80, 0x00, 0x80, 0x00]) == Ok(())),
        ("K: 7 at 1", check(&[0x10, 0x01, 0x00, 0x00]) == refused(7, 1)),
        ("K: 3 at 0", check(&[0x10, 0x01]) == refused(3, 0)),
    ]
}

/// The bytes of a recording in 01's notation, in which s starts a task and j joins one.
pub fn row(text: &str) -> Vec<u8> {
    let mut task = 0;
    let mut events = Vec::new();
    for word in text.replace(',', "").split(' ') {
        let number: usize = word[1..].parse().expect("a number");
        let mut event = |operation| events.push(Event { operation, task, object: number });
        match &word[..1] {
            "a" => event(Operation::Acquire),
            "r" => event(Operation::Release),
            "W" => event(Operation::Write),
            "R" => event(Operation::Read),
            "s" => event(Operation::Fork),
            "j" => event(Operation::Join),
            _ => task = number,
        }
    }
    encode(&events)
}

/// The bytes of a recording in which task 0 nests lock 1 in lock 0, task 1 lock 2 in lock 1, and so on round
/// a ring of so many tasks, one after another.
pub fn ring(tasks: usize) -> Vec<u8> {
    let nests = |task: usize, next: usize| format!("T{task} a{task} a{next} r{next} r{task}");
    let parts: Vec<String> = (0..tasks).map(|task| nests(task, (task + 1) % tasks)).collect();
    row(&parts.join(", "))
}

/// The only pattern of that recording, each task's second acquire: 2, 6, 10 and so on.
fn ring_pattern(tasks: usize) -> Vec<usize> {
    (0..tasks).map(|task| 4 * task + 2).collect()
}

/// The bytes of a recording of n events of which h leave lock 0 held: T0 a0, W0 as often as it takes, r0
/// and W0 again.
fn held(h: usize, n: usize) -> Vec<u8> {
    let mut words = vec!["W0"; n + 1];
    words[0] = "T0";
    if h > 0 {
        words[1] = "a0";
    }
    if 0 < h && h < n {
        words[h + 1] = "r0";
    }
    row(&words.join(" "))
}

/// Whether these patterns are listed, and the bytes after the written ones unchanged.
pub fn lists(recording: &[u8], size: u64, patterns: &[&[usize]]) -> bool {
    let entries = patterns.iter().flat_map(|pattern| [&[pattern.len()], *pattern].concat());
    let expected = bytes_from(&entries.collect::<Vec<_>>());
    let mut out = [7; 100];
    let listed = Listed { patterns: patterns.len() as u64, bytes: expected.len() as u64 };
    list(recording, size, &mut out) == Ok(listed) && starts_with_only(&out, &expected)
}

/// Whether these events are the witness of a deadlock.
pub fn witnesses(recording: &[u8], pattern: &[usize], events: &[usize]) -> bool {
    let expected = bytes_from(events);
    let mut out = [7; 100];
    let witnessed = Witnessed { deadlock: true, bytes: expected.len() as u64 };
    witness(recording, &bytes_from(pattern), &mut out) == Ok(witnessed) && starts_with_only(&out, &expected)
}

fn starts_with_only(out: &[u8], expected: &[u8]) -> bool {
    out.starts_with(expected) && out[expected.len()..].iter().all(|&byte| byte == 7)
}

/// Whether the listing into so many bytes is refused with this number and leaves them as they were.
fn refuses_unchanged(number: u64, recording: &[u8], size: u64, room: usize) -> bool {
    let mut out = vec![7; room];
    list(recording, size, &mut out) == Err(Refusal::without_event(number)) && starts_with_only(&out, &[])
}

/// Whether the closure of the first events is the second ones.
pub fn closes(recording: &[u8], events: &[usize], closure: &[usize]) -> bool {
    let set_of = |members: &[usize]| {
        let mut set = vec![0; (recording.len() / 2 - 1).div_ceil(8)];
        members.iter().for_each(|&event| put_into_set(&mut set, event));
        set
    };
    let mut set = set_of(events);
    close(recording, &mut set) == Ok((closure.len() - events.len()) as u64) && set == set_of(closure)
}

#[cfg(test)]
mod tests {
    #[test]
    fn rows_hold() {
        assert_eq!(super::failing(), Vec::<&str>::new());
    }
}
