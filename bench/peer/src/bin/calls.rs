//! Every call, from the recording's bytes on: ours, the second implementation's and the peer's, in one run.
use oracle::calls as peer;
use oracle::timing::median;
use second::calls as second;
use std::hint::black_box;
use std::time::Instant;

extern "C" {
    fn timed_check(rec: *const u8, rec_len: usize) -> u64;
    fn timed_relations(rec: *const u8, rec_len: usize, event: u64) -> u64;
    fn timed_load(rec: *const u8, rec_len: usize, lock: u64) -> u64;
    fn timed_close(rec: *const u8, rec_len: usize, set: *mut u8, set_len: usize) -> u64;
    fn timed_witness(r: *const u8, rl: usize, p: *const u8, pl: usize, out: *mut u8, ol: usize) -> u64;
    fn timed_schedule(r: *const u8, rl: usize, p: *const u8, pl: usize, s: *const u8, sl: usize) -> u64;
    fn hidzvoma_list(rec: *const u8, rec_len: usize, largest: u64, out: *mut u8, out_len: usize) -> u64;
    fn hidzvoma_verdict(rec: *const u8, rec_len: usize, pat: *const u8, pat_len: usize) -> u64;
}

/// Microseconds of a call, by a batch of about five milliseconds.
fn time(call: &mut dyn FnMut() -> u64) -> f64 {
    let t = Instant::now();
    black_box(call());
    let calls = (0.005 / t.elapsed().as_secs_f64().max(1e-7)).clamp(1.0, 5000.0) as u32;
    let t = Instant::now();
    for _ in 0..calls {
        black_box(call());
    }
    t.elapsed().as_secs_f64() * 1e6 / calls as f64
}

/// Prints a line of the table: the three answer the same number, and are measured in turn, nine times.
fn line(name: &str, file: &str, calls: [&mut dyn FnMut() -> u64; 3]) {
    let [ours, second, peer] = calls;
    let told = ours();
    assert_eq!(told, second(), "{name} {file}: second");
    assert_eq!(told, peer(), "{name} {file}: peer");
    let (mut a, mut b, mut c) = (Vec::new(), Vec::new(), Vec::new());
    for _ in 0..9 {
        a.push(time(ours));
        b.push(time(second));
        c.push(time(peer));
    }
    let (a, b, c) = (median(&mut a), median(&mut b), median(&mut c));
    println!("| {name} | {file} | {a:.1} | {b:.1} | {c:.1} | {:.2} | {:.2} |", a / b, a / c);
}

/// The calls on a recording and numbers.
fn numbered(rec: &[u8], file: &str, events: u64) {
    let (r, n) = (rec.as_ptr(), rec.len());
    line("check", file, [
        &mut || unsafe { timed_check(r, n) },
        &mut || second::check(rec).map_or(1, |_| 0),
        &mut || peer::check(rec).map_or(1, |_| 0),
    ]);
    line("relations", file, [
        &mut || unsafe { timed_relations(r, n, events / 2) },
        &mut || second::relations(rec, events / 2).unwrap().held,
        &mut || peer::relations(rec, events / 2).unwrap().held,
    ]);
    line("load", file, [
        &mut || unsafe { timed_load(r, n, 1) },
        &mut || second::load(rec, 1).unwrap(),
        &mut || peer::load(rec, 1).unwrap(),
    ]);
}

/// The closure of the last event.
fn closure(rec: &[u8], file: &str, events: usize) {
    let mut start = vec![0u8; events.div_ceil(8)];
    start[(events - 1) / 8] |= 128 >> ((events - 1) % 8);
    let mut set = start.clone();
    let (mut set2, mut set3) = (start.clone(), start.clone());
    line("close", file, [
        &mut || {
            set.copy_from_slice(&start);
            unsafe { timed_close(rec.as_ptr(), rec.len(), set.as_mut_ptr(), set.len()) }
        },
        &mut || {
            set2.copy_from_slice(&start);
            second::close(rec, &mut set2).unwrap()
        },
        &mut || {
            set3.copy_from_slice(&start);
            peer::closure(rec, &mut set3).unwrap()
        },
    ]);
}

/// The listing with a largest size, 0 for all: its bytes.
fn listing(rec: &[u8], file: &str, size: u64) -> Vec<u8> {
    let mut out = vec![0u8; 65_536];
    let (mut out2, mut out3) = (out.clone(), out.clone());
    line(&format!("list, size {size}"), file, [
        &mut || unsafe { hidzvoma_list(rec.as_ptr(), rec.len(), size, out.as_mut_ptr(), out.len()) },
        &mut || second::list(rec, size, &mut out2).unwrap().bytes,
        &mut || peer::listing(rec, size, &mut out3).unwrap().bytes,
    ]);
    out.truncate(second::list(rec, size, &mut out2).unwrap().bytes as usize);
    out
}

/// The calls on a pattern, and on its witness.
fn patterned(rec: &[u8], file: &str, pattern: &[u8]) {
    let (r, n, p, k) = (rec.as_ptr(), rec.len(), pattern.as_ptr(), pattern.len());
    line("verdict", file, [
        &mut || unsafe { hidzvoma_verdict(r, n, p, k) },
        &mut || second::c_verdict(rec, pattern),
        &mut || peer::c_verdict(rec, pattern),
    ]);
    let mut out = vec![0u8; 65_536];
    let (mut out2, mut out3) = (out.clone(), out.clone());
    line("witness", file, [
        &mut || unsafe { timed_witness(r, n, p, k, out.as_mut_ptr(), out.len()) },
        &mut || second::witness(rec, pattern, &mut out2).unwrap().bytes,
        &mut || peer::witness(rec, pattern, &mut out3).unwrap().unwrap(),
    ]);
    let bytes = peer::witness(rec, pattern, &mut out3).unwrap().unwrap() as usize;
    let schedule = &out3[..bytes];
    line("schedule", file, [
        &mut || unsafe { timed_schedule(r, n, p, k, schedule.as_ptr(), bytes) },
        &mut || second::schedule(rec, pattern, schedule).unwrap() as u64,
        &mut || peer::checker(rec, pattern, schedule).unwrap() as u64,
    ]);
}

fn main() {
    println!("| Call | Recording | ours, µs | second, µs | peer, µs | ours / second | ours / peer |");
    println!("|---|---|---|---|---|---|---|");
    for path in std::env::args().skip(1) {
        let rec = &std::fs::read(&path).unwrap()[..];
        let file = path.rsplit('/').next().unwrap();
        let events = (rec.len() - 2) / 2;
        numbered(rec, file, events as u64);
        closure(rec, file, events);
        listing(rec, file, 0);
        let listed = listing(rec, file, 2);
        if !listed.is_empty() {
            let middle = (listed.len() / 12) * 6 + 2;
            patterned(rec, file, &listed[middle..middle + 4]);
        }
    }
}
