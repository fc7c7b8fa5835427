//! Requests and answers as lines of text; bytes are hexadecimal, `-` for none.

use crate::calls;
use crate::recording::{numbers_from, Event, Refusal};

/// The calls of the protocol, in its order.
pub const CALLS: [&str; 10] =
    ["check", "relations", "load", "close", "list", "verdict", "witness", "schedule", "clist", "cverdict"];

/// What is answered to a line that is no request.
pub const BAD_REQUEST: &str = "bad request";

/// The answer to a request, with its refusal (number and event 0 for none).
pub struct Answer {
    pub line: String,
    pub refusal: Refusal,
}

/// The answer of the line's call of 01, or none where the line is no request.
pub fn answer(line: &str) -> Option<Answer> {
    let words: Vec<&str> = line.split(' ').collect();
    match words[..] {
        ["check", rec] => Some(check(&bytes(rec)?)),
        ["relations", rec, event] => Some(relations(&bytes(rec)?, number(event)?)),
        ["load", rec, lock] => Some(load(&bytes(rec)?, number(lock)?)),
        ["close", rec, set] => Some(close(&bytes(rec)?, bytes(set)?)),
        ["list", rec, size, out] => Some(list(&bytes(rec)?, number(size)?, bytes(out)?)),
        ["verdict", rec, pattern] => Some(verdict(&bytes(rec)?, &bytes(pattern)?)),
        ["witness", rec, pattern, out] => Some(witness(&bytes(rec)?, &bytes(pattern)?, bytes(out)?)),
        ["schedule", rec, pattern, list] => Some(schedule(&bytes(rec)?, &bytes(pattern)?, &bytes(list)?)),
        ["clist", rec, size, out] => Some(c_list(&bytes(rec)?, number(size)?, bytes(out)?)),
        ["cverdict", rec, pattern] => Some(c_verdict(&bytes(rec)?, &bytes(pattern)?)),
        _ => None,
    }
}

/// The answer line to any line.
pub fn answer_line(line: &str) -> String {
    answer(line).map_or(BAD_REQUEST.to_string(), |answer| answer.line)
}

/// The numbers h and n of the line's load, or none where the line is no load or a refused one.
pub fn held_of_all(line: &str) -> Option<(u64, u64)> {
    let words: Vec<&str> = line.split(' ').collect();
    match words[..] {
        ["load", rec, lock] => calls::held_of_all(&bytes(rec)?, number(lock)?).ok(),
        _ => None,
    }
}

/// The size and the entries, each the events of one, that the listing of these words wrote according to its
/// answer, or none where the words are no listing or a refused one.
pub fn entries_of(words: &[&str], answer: &Answer) -> Option<(u64, Vec<Vec<usize>>)> {
    let answered: Vec<&str> = answer.line.split(' ').collect();
    let (size, written, lent) = match (words, &answered[..]) {
        _ if answer.refusal.number != 0 => return None,
        (["list", _, size, _], [_, _, _, written, lent]) => (size, written, lent),
        (["clist", _, size, _], [written, lent]) => (size, written, lent),
        _ => return None,
    };
    let numbers = numbers_from(&bytes(lent)?[..number(written)? as usize]);
    let mut rest = &numbers[..];
    let mut entries = Vec::new();
    while let [length, others @ ..] = rest {
        entries.push(others[..*length].to_vec());
        rest = &others[*length..];
    }
    Some((number(size)?, entries))
}

/// The events after the header of a recording's word.
pub fn events_of(word: &str) -> Option<Vec<Event>> {
    let recording = bytes(word)?;
    Some(numbers_from(recording.get(2..)?).into_iter().map(Event::unpack).collect())
}

/// The two-byte numbers of a word, or none where it has no bytes.
pub fn numbers_in(word: &str) -> Vec<usize> {
    bytes(word).map_or(Vec::new(), |bytes| numbers_from(&bytes))
}

/// Bytes as lowercase hexadecimal digits, `-` for none.
pub fn hexadecimal(bytes: &[u8]) -> String {
    if bytes.is_empty() {
        return "-".to_string();
    }
    let digit = |value: u8| char::from(b"0123456789abcdef"[usize::from(value)]);
    bytes.iter().flat_map(|&byte| [digit(byte >> 4), digit(byte & 15)]).collect()
}

/// The bytes of a word of lowercase hexadecimal digits, or `-`.
pub fn bytes(word: &str) -> Option<Vec<u8>> {
    if word == "-" {
        return Some(Vec::new());
    }
    if word.is_empty() || word.len() % 2 == 1 {
        return None;
    }
    word.as_bytes().chunks(2).map(|pair| Some(digit(pair[0])? * 16 + digit(pair[1])?)).collect()
}

/// The value of a lowercase hexadecimal digit.
fn digit(character: u8) -> Option<u8> {
    match character {
        b'0'..=b'9' => Some(character - b'0'),
        b'a'..=b'f' => Some(character - b'a' + 10),
        _ => None,
    }
}

/// A decimal number of 64 bits without sign or leading zeros.
pub fn number(word: &str) -> Option<u64> {
    let only_digits = word.bytes().all(|character| character.is_ascii_digit());
    if !only_digits || (word.starts_with('0') && word != "0") {
        return None;
    }
    word.parse().ok()
}

/// An answer of refusal, event, fields (all 0 where refused) and the lent bytes, if any were lent.
fn tell<const N: usize>(outcome: Result<[u64; N], Refusal>, lent: Option<&[u8]>) -> Answer {
    let refusal = outcome.err().unwrap_or(Refusal { number: 0, event: 0 });
    let fields = outcome.unwrap_or([0; N]);
    let mut words = vec![refusal.number.to_string(), refusal.event.to_string()];
    words.extend(fields.iter().map(u64::to_string));
    words.extend(lent.map(hexadecimal));
    Answer { line: words.join(" "), refusal }
}

fn check(recording: &[u8]) -> Answer {
    tell(calls::check(recording).map(|()| []), None)
}

fn relations(recording: &[u8], event: u64) -> Answer {
    let outcome = calls::relations(recording, event);
    let count = |mask: u64| u64::from(mask.count_ones());
    tell(
        outcome.map(|x| [x.held, count(x.held), x.matching as u64, x.writer as u64, x.predecessor as u64]),
        None,
    )
}

fn load(recording: &[u8], lock: u64) -> Answer {
    tell(calls::load(recording, lock).map(|percent| [percent]), None)
}

fn close(recording: &[u8], mut set: Vec<u8>) -> Answer {
    let outcome = calls::close(recording, &mut set);
    tell(outcome.map(|added| [added]), Some(&set))
}

fn list(recording: &[u8], size: u64, mut out: Vec<u8>) -> Answer {
    let outcome = calls::list(recording, size, &mut out);
    tell(outcome.map(|listed| [listed.patterns, listed.bytes]), Some(&out))
}

fn verdict(recording: &[u8], pattern: &[u8]) -> Answer {
    tell(calls::verdict(recording, pattern).map(|deadlock| [u64::from(deadlock)]), None)
}

fn witness(recording: &[u8], pattern: &[u8], mut out: Vec<u8>) -> Answer {
    let outcome = calls::witness(recording, pattern, &mut out);
    tell(outcome.map(|x| [u64::from(x.deadlock), x.bytes]), Some(&out))
}

fn schedule(recording: &[u8], pattern: &[u8], proposed: &[u8]) -> Answer {
    tell(calls::schedule(recording, pattern, proposed).map(|valid| [u64::from(valid)]), None)
}

fn c_list(recording: &[u8], size: u64, mut out: Vec<u8>) -> Answer {
    let number = calls::c_list(recording, size, &mut out);
    Answer { line: format!("{} {}", number, hexadecimal(&out)), refusal: refusal_in_c(number) }
}

fn c_verdict(recording: &[u8], pattern: &[u8]) -> Answer {
    let number = calls::c_verdict(recording, pattern);
    Answer { line: number.to_string(), refusal: refusal_in_c(number) }
}

/// The refusal within a C entry's number, number and event 0 for an even one.
fn refusal_in_c(number: u64) -> Refusal {
    if number % 2 == 1 {
        Refusal { number: number / 2 / 65_536, event: number / 2 % 65_536 }
    } else {
        Refusal { number: 0, event: 0 }
    }
}
