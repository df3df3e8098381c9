//! Texts that are wrong in one place: every byte in turn, and at random.

use super::near;
use super::tree::{JOINTS, PREFIXES};
use crate::kinds::Kinds;
use crate::random::Random;

/// The grammar's own signs and a few that look like them; neighbours in a ring replace each other.
const FIRST_RING: &[u8] = b"T)p0&!(E A1X 2U3tx|\n9>u,";
const RING: &[u8] = b"T)p0&!(E A1X 2U3tx|\n9>u,FG-aegf=";

/// How often each damage is done; the last one came with the kinds behind the first seven.
const FIRST_WAYS: &[usize] = &[25, 15, 15, 10, 10, 5, 5, 5, 10];
const WAYS: &[usize] = &[20, 10, 10, 10, 10, 5, 5, 5, 10, 15];

/// Formulas that are taken apart byte by byte.
pub const TAKEN_APART: [&str; 8] = [
    "p31",
    "!EX p0",
    "(p0&!T)",
    "EX EX (p1&p20)",
    "E(T U p10)",
    "A(!p2 U EX p3)",
    "((p0&p1)&E(p2 U T))",
    "EX A(p4 U (T&!E(p5 U p30)))",
];

/// Each byte dropped, each doubled, each changed to another sign, the text cut behind it.
pub fn byte_by_byte(kinds: Kinds, text: &str) -> Vec<Vec<u8>> {
    let ring = kinds.choose(FIRST_RING, RING);
    let text = text.as_bytes();
    let at = |place: usize| {
        let (front, back) = (&text[..place], &text[place + 1..]);
        let (own, other) = (&text[place..=place], [another(ring, text[place], place)]);
        [[front, back].concat(), [front, own, own, back].concat(), [front, &other, back].concat(), front.to_vec()]
    };
    (0..text.len()).flat_map(at).collect()
}

fn another(ring: &[u8], sign: u8, place: usize) -> u8 {
    let step = (0..ring.len()).map(|more| ring[(5 * place + more) % ring.len()]);
    step.into_iter().find(|&other| other != sign).unwrap()
}

/// One place of a text changed at random; the text may stay within the grammar.
pub fn damage(random: &mut Random, text: &mut Vec<u8>) {
    let ring = random.kinds.choose(FIRST_RING, RING);
    let sign = if random.chance(90) { random.pick(ring) } else { random.below(256) as u8 };
    if text.is_empty() {
        text.push(sign);
        return;
    }
    let (place, other) = (random.below(text.len()), random.below(text.len()));
    match random.weighted(random.kinds.choose(FIRST_WAYS, WAYS)) {
        0 => text[place] = sign,
        1 => drop(text.remove(place)),
        2 => text.insert(place, text[place]),
        3 => text.insert(place, sign),
        4 => text.swap(place, other),
        5 => text.truncate(place),
        6 => text.push(sign),
        7 => drop(text.drain(place.min(other)..=place.max(other))),
        8 => change_atom(random, text),
        _ => change_sign(random, text),
    }
}

/// One sign of two letters, or between two formulas, changed to what is near to it.
fn change_sign(random: &mut Random, text: &mut Vec<u8>) {
    let prefixes = PREFIXES.iter().filter(|row| row.1.len() == 3).map(|row| (row.1, near::prefix(row.1)));
    let middles = JOINTS.iter().map(|row| (row.2, near::middle(row.2)));
    let signs: Vec<(&str, Vec<String>)> = prefixes.chain(middles).collect();
    let at = |place: usize| signs.iter().position(|(sign, _)| text[place..].starts_with(sign.as_bytes()));
    let found: Vec<(usize, usize)> = (0..text.len()).filter_map(|place| Some((place, at(place)?))).collect();
    if found.is_empty() {
        return;
    }
    let (place, which) = random.pick(&found);
    let (sign, others) = &signs[which];
    text.splice(place..place + sign.len(), others[random.below(others.len())].bytes());
}

/// An atom's number changed to one that is, just is or just isn't allowed.
fn change_atom(random: &mut Random, text: &mut Vec<u8>) {
    let places: Vec<usize> = (0..text.len()).filter(|&place| text[place] == b'p').collect();
    if places.is_empty() {
        return;
    }
    let begin = random.pick(&places) + 1;
    let digits = text[begin..].iter().take_while(|byte| byte.is_ascii_digit()).count();
    let number: &str = random.pick(&["0", "9", "10", "30", "31", "32", "33", "00", "031", "", "100", "256"]);
    text.splice(begin..begin + digits, number.bytes());
}
