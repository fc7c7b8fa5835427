//! The comparison of another implementation's answers with this one's.

use crate::lifetimes::Lifetimes;
use crate::protocol::{answer, entries_of, held_of_all, Answer, BAD_REQUEST, CALLS};
use crate::reentry::Reentry;

/// What was compared: requests by call, answers by refusal number, loads at a half, listings with size 0,
/// locks taken again, starts and joins, and differences.
#[derive(Default)]
pub struct Summary {
    calls: [u64; CALLS.len()],
    refusals: [u64; 17],
    bad_requests: u64,
    /// Loads at a half above an even whole per cent, and above an odd one.
    halves: [u64; 2],
    /// Accepted listings with size 0, by the size of the largest entry, which is 0 where there is none.
    largest_entries: [u64; 17],
    reentry: Reentry,
    lifetimes: Lifetimes,
    compared: u64,
    differ: u64,
}

impl Summary {
    /// Answers a request, counts it, and returns a report if the other answer differs.
    pub fn compare(&mut self, request: &str, other: &str) -> Option<String> {
        self.compared += 1;
        let own = match answer(request) {
            Some(own) => {
                self.count(request, &own);
                own.line
            }
            None => {
                self.bad_requests += 1;
                BAD_REQUEST.to_string()
            }
        };
        if own == other {
            return None;
        }
        self.differ += 1;
        Some(format!("request: {request}\nsecond:  {own}\nother:   {other}"))
    }

    fn count(&mut self, request: &str, own: &Answer) {
        let words: Vec<&str> = request.split(' ').collect();
        let call = CALLS.iter().position(|&call| call == words[0]);
        self.calls[call.expect("an answered call is known")] += 1;
        self.refusals[own.refusal.number as usize] += 1;
        self.count_half(request);
        if let Some((0, entries)) = entries_of(&words, own) {
            let largest = entries.iter().map(Vec::len).max();
            self.largest_entries[largest.unwrap_or(0)] += 1;
        }
        self.reentry.count(request, own);
        self.lifetimes.count(request, own);
    }

    /// Counts a load whose 100 × h / n is exactly a half above a whole per cent.
    fn count_half(&mut self, request: &str) {
        let at_half = |&(h, n): &(u64, u64)| n > 0 && 200 * h % (2 * n) == n;
        if let Some((h, n)) = held_of_all(request).filter(at_half) {
            self.halves[(100 * h / n % 2) as usize] += 1;
        }
    }

    /// Whether no answer differed.
    pub fn all_equal(&self) -> bool {
        self.differ == 0
    }

    /// The counts as lines of text.
    pub fn text(&self) -> String {
        let named = |name: &str, count: u64| format!("{name} {count}");
        let calls = CALLS.iter().zip(self.calls).map(|(name, count)| named(name, count));
        let refusals =
            self.refusals.iter().enumerate().map(|(number, &count)| named(&format!("{number}:"), count));
        let [below, above] = self.halves;
        let halves = format!("loads at a half: to the even below {below}, to the even above {above}");
        let [listings, two, more, sixteen] = self.listings_with_size_0();
        let listings = format!(
            "listings with size 0: {listings}, largest entry of two events {two}, \
             of three to fifteen events {more}, of sixteen events {sixteen}"
        );
        format!(
            "requests: {}\nrefusals: {}\nbad requests: {}\n{}\n{}\n{}\n{}\n{} compared, {} differ",
            calls.collect::<Vec<_>>().join(", "),
            refusals.collect::<Vec<_>>().join(", "),
            self.bad_requests,
            halves,
            listings,
            self.reentry.text(),
            self.lifetimes.text(),
            self.compared,
            self.differ
        )
    }

    /// All accepted listings with size 0, and those whose largest entry has two events, three to fifteen,
    /// and sixteen.
    fn listings_with_size_0(&self) -> [u64; 4] {
        [0..=16, 2..=2, 3..=15, 16..=16].map(|sizes| self.largest_entries[sizes].iter().sum())
    }
}

#[cfg(test)]
mod tests {
    use super::Summary;
    use crate::protocol::hexadecimal;
    use crate::rows::ring;

    #[test]
    fn halves_are_counted() {
        let mut summary = Summary::default();
        let answered = [
            ("load 10088000c000400040004000400040004000 0", "0 0 12"),
            ("load 10088000c000400040004000400040004000 1", "0 0 0"),
            ("load 10088000c000400040004000400040004000 64", "14 0 0"),
            ("load 10098000c000400040004000400040004000 0", "3 0 0"),
            ("load 1008800040004000c0004000400040004000 0", "0 0 38"),
            ("load 100880004000400040004000400040004000 0", "0 0 100"),
            ("load 1000 0", "0 0 0"),
        ];
        for (request, line) in answered {
            assert_eq!(summary.compare(request, line), None);
        }
        assert_eq!(summary.halves, [1, 1]);
    }

    #[test]
    fn refusals_are_counted() {
        let mut summary = Summary::default();
        let answered = [
            ("check 10018040", "15 1"),
            ("relations 1001c040 1", "16 1 0 0 0 0 0"),
            ("clist 1001c040 1 -", "2097155 -"),
            ("check 10018050", "4 1"),
            ("check 10018041", "0 0"),
        ];
        for (request, line) in answered {
            assert_eq!(summary.compare(request, line), None);
        }
        assert_eq!((summary.refusals[15], summary.refusals[16]), (1, 2));
        assert_eq!((summary.refusals[0], summary.refusals[4]), (1, 1));
    }

    #[test]
    fn listings_with_size_0_are_counted() {
        let mut summary = Summary::default();
        let mut compare = |request: &str, line: &str| assert_eq!(summary.compare(request, line), None);
        let [two, three, sixteen] = [2, 3, 16].map(|tasks| hexadecimal(&ring(tasks)));
        compare("list 1000 0 -", "0 0 0 0 -");
        compare(&format!("list {two} 0 7777777777777777"), "0 0 1 6 0002000200067777");
        compare(&format!("clist {two} 0 777777777777"), "6 000200020006");
        compare(&format!("list {two} 2 777777777777"), "0 0 1 6 000200020006");
        compare(&format!("list {two} 1 777777777777"), "8 0 0 0 777777777777");
        compare(&format!("clist {three} 0 7777777777777777"), "8 000300020006000a");
        compare(&format!("clist {three} 0 77777777777777"), "1703937 77777777777777");
        compare(&format!("list {three} 0 77777777777777"), "13 0 0 0 77777777777777");
        let three_then_two = "101080008001c001c00084018402c402c40188028800c800c8028c018c00cc00cc01";
        let (room, entries) = ("7".repeat(28), "000300020006000a00020002000e");
        compare(&format!("list {three_then_two} 0 {room}"), &format!("0 0 2 14 {entries}"));
        let room = "7".repeat(68);
        let entry =
            "00100002 0006000a 000e0012 0016001a 001e0022 0026002a 002e0032 0036003a 003e".replace(' ', "");
        compare(&format!("list {sixteen} 0 {room}"), &format!("0 0 1 34 {entry}"));
        compare(&format!("list {sixteen} 16 {room}"), &format!("0 0 1 34 {entry}"));
        compare(&format!("list {sixteen} 15 {room}"), &format!("0 0 0 0 {room}"));
        assert_eq!(summary.listings_with_size_0(), [6, 2, 2, 1]);
    }
}
