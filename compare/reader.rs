//! The text form, read line by line; the first break of form or count out of its range decides.

use crate::model::{Model, FALSE, TRUE, UNKNOWN};

pub const MOST_BYTES: usize = 32_768;
const BREAK_OF_FORM: u16 = 19;

pub fn read(text: &[u8]) -> Result<Model, u16> {
    if text.len() > MOST_BYTES {
        return Err(18);
    }
    let mut rest = text;
    let states = count(&mut rest, "states", 1, 256, 1)?;
    let atoms = count(&mut rest, "atoms", 0, 32, 2)?;
    let initial = symbols(value(&mut rest, "init")?, states, &[(b'0', 0), (b'1', 1)])?;
    let letters = [(b'F', FALSE), (b'U', UNKNOWN), (b'T', TRUE)];
    let mut labels = Vec::new();
    for _ in 0..states {
        labels.extend(symbols(value(&mut rest, "label")?, atoms, &letters)?);
    }
    let edges = count(&mut rest, "edges", 1, 1024, 6)?;
    let transitions = table(&mut rest, "edge", edges, 2)?;
    let node_count = count(&mut rest, "nodes", 1, 64, 10)?;
    let nodes = table(&mut rest, "node", node_count, 3)?;
    if !rest.is_empty() {
        return Err(BREAK_OF_FORM);
    }
    Ok(Model { states, atoms, labels, initial, transitions, nodes })
}

/// Takes one line with its line feed off the text and gives what stands behind `key=`.
fn value<'a>(rest: &mut &'a [u8], key: &str) -> Result<&'a [u8], u16> {
    let end = rest.iter().position(|&byte| byte == b'\n').ok_or(BREAK_OF_FORM)?;
    let (line, after) = (&rest[..end], &rest[end + 1..]);
    *rest = after;
    line.strip_prefix(format!("{key}=").as_bytes()).ok_or(BREAK_OF_FORM)
}

/// The whole line is judged for its form before its count is judged for its range.
fn count(rest: &mut &[u8], key: &str, least: u16, most: u16, refusal: u16) -> Result<usize, u16> {
    let found = number(value(rest, key)?)?;
    if found < least || found > most {
        return Err(refusal);
    }
    Ok(found as usize)
}

fn number(digits: &[u8]) -> Result<u16, u16> {
    let plain = !digits.is_empty() && digits.iter().all(u8::is_ascii_digit);
    let leading_zero = digits.len() > 1 && digits[0] == b'0';
    // Six digits without a leading zero are above 65,535 whatever they are.
    if !plain || leading_zero || digits.len() > 5 {
        return Err(BREAK_OF_FORM);
    }
    let number = digits.iter().fold(0u32, |sum, digit| sum * 10 + (digit - b'0') as u32);
    u16::try_from(number).map_err(|_| BREAK_OF_FORM)
}

fn symbols(line: &[u8], length: usize, meaning: &[(u8, u8)]) -> Result<Vec<u8>, u16> {
    if line.len() != length {
        return Err(BREAK_OF_FORM);
    }
    let one = |byte: &u8| meaning.iter().find(|(symbol, _)| symbol == byte).map(|(_, value)| *value);
    line.iter().map(|byte| one(byte).ok_or(BREAK_OF_FORM)).collect()
}

fn table(rest: &mut &[u8], key: &str, lines: usize, width: usize) -> Result<Vec<u16>, u16> {
    let mut numbers = Vec::new();
    for _ in 0..lines {
        let fields: Vec<&[u8]> = value(rest, key)?.split(|&byte| byte == b',').collect();
        if fields.len() != width {
            return Err(BREAK_OF_FORM);
        }
        for field in fields {
            numbers.push(number(field)?);
        }
    }
    Ok(numbers)
}
