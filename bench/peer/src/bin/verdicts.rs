//! The verdict of one pattern, recording checked and tables built: the peer's and ours, in one run.
use oracle::front::verdict;
use oracle::recording::Recording;
use oracle::search::search;
use oracle::timing::median;
use std::hint::black_box;
use std::time::Instant;

extern "C" {
    fn timed_verdicts(rec: *const u8, rec_len: usize, pat: *const u8, pat_len: usize, rounds: u64) -> u64;
}

fn ours(rec: &[u8], pattern: &[u8], rounds: u64) -> u64 {
    unsafe { timed_verdicts(rec.as_ptr(), rec.len(), pattern.as_ptr(), pattern.len(), rounds) }
}

fn bytes(pattern: &[u16]) -> Vec<u8> {
    pattern.iter().flat_map(|e| e.to_be_bytes()).collect()
}

/// Up to `most` patterns with the verdict deadlock, spread over the listing, and as many pairs without it.
fn patterns(r: &Recording, most: usize) -> Vec<Vec<u16>> {
    let mut listed = Vec::new();
    search(r, 4, &mut |p: &[u16]| {
        listed.push(p.to_vec());
        listed.len() < 20_000
    });
    let step = listed.len() / most + 1;
    let mut out: Vec<Vec<u16>> = listed.into_iter().step_by(step).collect();
    let mut others = Vec::new();
    'pairs: for (i, &a) in r.acquires.iter().enumerate() {
        for &b in r.acquires[i + 1..].iter().rev() {
            let p = [a, b];
            if r.pattern(&bytes(&p)).is_some() && !verdict(r, &p).0 {
                others.push(p.to_vec());
                if others.len() == 20 * most {
                    break 'pairs;
                }
                break;
            }
        }
    }
    let step = others.len() / most + 1;
    out.extend(others.into_iter().step_by(step));
    out
}

/// Nanoseconds of a verdict, the peer's and ours: medians of nine batches, in turn.
fn measure(rec: &[u8], r: &Recording, p: &[u16]) -> (f64, f64) {
    let b = bytes(p);
    assert_eq!(ours(rec, &b, 1) == 2, verdict(r, p).0, "{p:?}");
    let rounds = 200u64;
    let (mut x, mut y) = (Vec::new(), Vec::new());
    for _ in 0..9 {
        let t = Instant::now();
        for _ in 0..rounds {
            black_box(verdict(black_box(r), black_box(p)).0);
        }
        x.push(t.elapsed().as_nanos() as f64 / rounds as f64);
        let t = Instant::now();
        black_box(ours(black_box(rec), black_box(&b), 0));
        let base = t.elapsed();
        let t = Instant::now();
        black_box(ours(black_box(rec), black_box(&b), rounds));
        y.push((t.elapsed().as_nanos() as f64 - base.as_nanos() as f64) / rounds as f64);
    }
    (median(&mut x), median(&mut y))
}

fn main() {
    println!("| Recording | Patterns | peer, ns | ours, ns | ours / peer: median (least to most) |");
    println!("|---|---|---|---|---|");
    let mut all = Vec::new();
    for path in std::env::args().skip(1) {
        let rec = std::fs::read(&path).unwrap();
        let Ok(r) = Recording::read(&rec) else { continue };
        let (mut theirs, mut mine, mut ratios) = (Vec::new(), Vec::new(), Vec::new());
        for p in patterns(&r, 24) {
            let (x, y) = measure(&rec, &r, &p);
            theirs.push(x);
            mine.push(y);
            ratios.push(y / x);
        }
        if ratios.is_empty() {
            continue;
        }
        let least = ratios.iter().cloned().fold(f64::MAX, f64::min);
        let most = ratios.iter().cloned().fold(0.0, f64::max);
        let name = path.rsplit('/').next().unwrap();
        let n = ratios.len();
        all.extend(ratios.iter().cloned());
        println!(
            "| {name} | {n} | {:.0} | {:.0} | {:.2} ({least:.2} to {most:.2}) |",
            median(&mut theirs),
            median(&mut mine),
            median(&mut ratios)
        );
    }
    println!("| all | {} | | | {:.2} |", all.len(), median(&mut all.clone()));
}
