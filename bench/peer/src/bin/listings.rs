//! The whole listing call, from the recording's bytes to the written entries: the peer's and ours, in one run.
use oracle::calls::{listing, Listed};
use oracle::timing::median;
use oracle::Refusal;
use std::hint::black_box;
use std::time::Instant;

extern "C" {
    fn hidzvoma_list(rec: *const u8, rec_len: usize, largest: u64, out: *mut u8, out_len: usize) -> u64;
}

fn ours(rec: &[u8], largest: u64, out: &mut [u8]) -> u64 {
    unsafe { hidzvoma_list(rec.as_ptr(), rec.len(), largest, out.as_mut_ptr(), out.len()) }
}

/// The number that the entry for C returns for the peer's answer.
fn number(answer: &Result<Listed, Refusal>) -> u64 {
    match answer {
        Ok(l) => l.bytes,
        Err(x) => 2 * (65536 * x.number as u64 + x.event as u64) + 1,
    }
}

/// Calls in a batch, so that one takes about ten milliseconds.
fn batch(mut call: impl FnMut()) -> u32 {
    let t = Instant::now();
    call();
    (0.01 / t.elapsed().as_secs_f64().max(1e-7)).clamp(1.0, 2000.0) as u32
}

fn time(calls: u32, mut call: impl FnMut()) -> f64 {
    let t = Instant::now();
    for _ in 0..calls {
        call();
    }
    t.elapsed().as_secs_f64() * 1e6 / calls as f64
}

/// Prints a line of the table, after comparing the answers and all output bytes: the ratio's median.
fn line(name: &str, rec: &[u8], size: u64, room: usize) -> f64 {
    let (mut a, mut b) = (vec![0xA5u8; room], vec![0xA5u8; room]);
    let answer = listing(rec, size, &mut a);
    assert_eq!(ours(rec, size, &mut b), number(&answer), "{name} {size}");
    assert!(a == b, "{name} {size}: bytes differ");
    let told = match &answer {
        Ok(l) => format!("{} patterns", l.patterns),
        Err(x) => format!("refused {}", x.number),
    };
    let calls = batch(|| { let _ = black_box(listing(black_box(rec), size, &mut a)); });
    let (mut x, mut y, mut r) = (Vec::new(), Vec::new(), Vec::new());
    for _ in 0..9 {
        let theirs = time(calls, || { let _ = black_box(listing(black_box(rec), size, &mut a)); });
        let mine = time(calls, || { black_box(ours(black_box(rec), size, &mut b)); });
        x.push(theirs);
        y.push(mine);
        r.push(mine / theirs);
    }
    let (px, py, pr) = (median(&mut x), median(&mut y), median(&mut r));
    println!(
        "| {name} | {size} | {room} | {told} | {px:.1} | {py:.1} | {pr:.2} ({:.2} to {:.2}) |",
        r[0],
        r[r.len() - 1]
    );
    pr
}

fn main() {
    println!("| Recording | Size | Output | Answer | peer, µs | ours, µs | ours / peer (least to most) |");
    println!("|---|---|---|---|---|---|---|");
    let mut logs = Vec::new();
    let mut worst: f64 = 0.0;
    for path in std::env::args().skip(1) {
        let rec = std::fs::read(&path).unwrap();
        let name = path.rsplit('/').next().unwrap();
        for (size, room) in [(2, 65_536), (4, 65_536), (0, 65_536), (0, 2_000_000)] {
            if room > 65_536 && !name.starts_with("ring5") {
                continue;
            }
            let ratio = line(name, &rec, size, room);
            logs.push(ratio.ln());
            worst = worst.max(ratio);
        }
    }
    let mean = (logs.iter().sum::<f64>() / logs.len() as f64).exp();
    println!("| geometric mean | | | | | | {mean:.2} |");
    println!("| most | | | | | | {worst:.2} |");
}
