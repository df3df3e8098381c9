//! The label desk: a text taken apart into lines, each of them answered by one.

use super::gate::Gate;
use super::{judging, words};

const MOST_BYTES: usize = 128;
const BREAK_OF_FORM: u16 = 19;

/// The last piece may lack its line feed; a text of no bytes has no piece.
pub fn answer(text: &[u8]) -> String {
    let pieces = text.split_inclusive(|&byte| byte == b'\n');
    let one = |piece: &[u8]| answer_line(piece.strip_suffix(b"\n").ok_or(BREAK_OF_FORM).and_then(label));
    pieces.map(one).collect()
}

pub fn answer_line(label: Result<char, u16>) -> String {
    match label {
        Ok(label) => format!("{label}\n"),
        Err(refusal) => format!("answer={refusal}\n"),
    }
}

/// Every break of form in the line comes before the gate is judged.
pub fn label(line: &[u8]) -> Result<char, u16> {
    let (gate, measurement) = parts(line).ok_or(BREAK_OF_FORM)?;
    if let Some(ends) = measurement.strip_prefix(b"volts=") {
        let both = read_gate(gate, words::voltage).zip(numbers(ends, words::voltage));
        let (gate, ends) = both.ok_or(BREAK_OF_FORM)?;
        return judging::voltage(gate, ends);
    }
    let counters = measurement.strip_prefix(b"ticks=").and_then(|pair| numbers(pair, words::counter));
    let (gate, [later, earlier]) = read_gate(gate, words::limit).zip(counters).ok_or(BREAK_OF_FORM)?;
    judging::ticks(gate, judging::delay(later, earlier))
}

/// What stands on both sides of the only blank of a line that isn't too long.
fn parts(line: &[u8]) -> Option<(&[u8], &[u8])> {
    let parts: Vec<&[u8]> = line.split(|&byte| byte == b' ').collect();
    match parts[..] {
        [gate, measurement] if line.len() <= MOST_BYTES => Some((gate, measurement)),
        _ => None,
    }
}

fn read_gate<T: Copy>(word: &[u8], read: fn(&[u8]) -> Option<T>) -> Option<Gate<T>> {
    if let Some(limits) = word.strip_prefix(b"between=") {
        return numbers(limits, read).map(|[low, high]| Gate::Between(low, high));
    }
    let one = |key: &[u8]| numbers(word.strip_prefix(key)?, read).map(|[limit]| limit);
    one(b"atleast=").map(Gate::AtLeast).or(one(b"atmost=").map(Gate::AtMost))
}

/// Exactly so many numbers with commas between them.
fn numbers<T, const COUNT: usize>(list: &[u8], read: fn(&[u8]) -> Option<T>) -> Option<[T; COUNT]> {
    let found: Option<Vec<T>> = list.split(|&byte| byte == b',').map(read).collect();
    found?.try_into().ok()
}
