//! Lines of the label desk broken somewhere; a few are still in the form afterwards.

use super::{decimals, lines, wrong};
use crate::random::Random;

/// Signs of the form and a few that look like them, and bytes that no text has.
const SIGNS: [u8; 32] = *b"0123459.,e- =-+E_atnvs\t\r\0x:;/\xff\x80n";
const CHANGES: [(&str, &str); 31] = [
    (" ", "  "),
    (" ", ""),
    (" ", "\t"),
    (" ", ","),
    (",", ""),
    (",", ", "),
    (",", " "),
    (",", ",,"),
    (",", ",0,"),
    (",", "."),
    ("=", ""),
    ("=", "=="),
    ("=", ":"),
    ("=", " "),
    ("=", "=+"),
    ("=", "=-"),
    ("=", "=0"),
    ("=", "=1"),
    (",", ",0"),
    (".", ".."),
    ("-", "+"),
    ("-", "--"),
    ("e", "E"),
    ("volts", "volt"),
    ("volts", "ticks"),
    ("ticks", "volts"),
    ("ticks", "Ticks"),
    ("atleast", "between"),
    ("between", "atmost"),
    ("atmost", "atleast"),
    ("at", "At"),
];

pub fn any(random: &mut Random) -> Vec<u8> {
    match random.weighted(&[30, 25, 20, 15, 6, 4]) {
        0 => with_wrong_word(random),
        1 => damaged(random),
        2 => changed(random),
        3 => random.pick(wrong::LINES).to_vec(),
        4 => long(random),
        _ => Vec::new(),
    }
}

/// One number of a good line replaced by a word that is none.
fn with_wrong_word(random: &mut Random) -> Vec<u8> {
    let line = lines::any(random);
    let begins: Vec<usize> = line.match_indices(['=', ',']).map(|(place, _)| place + 1).collect();
    let chosen = random.below(begins.len());
    let (front, back) = line.split_at(begins[chosen]);
    let (table, beyond) = match (line.contains("volts"), begins.len() - chosen) {
        (true, _) => (wrong::VOLTAGES, decimals::beyond(random)),
        (false, 1 | 2) => (wrong::COUNTERS, random.pick(&["4294967296", "-1"]).to_string()),
        (false, _) => (wrong::LIMITS, random.pick(&["2147483648", "-2147483649"]).to_string()),
    };
    let rest = &back[back.find([',', ' ']).unwrap_or(back.len())..];
    let word = if random.chance(30) { &beyond } else { random.pick(table) };
    format!("{front}{word}{rest}").into_bytes()
}

/// One or two bytes of a good line changed, dropped, doubled, put in, exchanged, or everything behind them cut off.
fn damaged(random: &mut Random) -> Vec<u8> {
    let mut line = lines::any(random).into_bytes();
    for _ in 0..random.pick(&[1, 1, 2]) {
        let sign = if random.chance(90) { random.pick(&SIGNS) } else { random.below(256) as u8 };
        let (place, other) = (random.below(line.len()), random.below(line.len()));
        match random.weighted(&[30, 20, 15, 20, 10, 5]) {
            0 => line[place] = sign,
            1 => drop(line.remove(place)),
            2 => line.insert(place, line[place]),
            3 => line.insert(place, sign),
            4 => line.swap(place, other),
            _ => line.truncate(place.max(1)),
        }
    }
    line
}

/// A part of a good line replaced by one that looks like it, or something put before or behind the line.
fn changed(random: &mut Random) -> Vec<u8> {
    let line = lines::any(random);
    let around = random.pick(&[" ", "\r", "\0", "\t", ",", ",0", "0", " 1", "."]);
    match random.weighted(&[75, 15, 10]) {
        1 => return (line + around).into_bytes(),
        2 => return format!("{around}{line}").into_bytes(),
        _ => {}
    }
    let fitting: Vec<(&str, &str)> = CHANGES.into_iter().filter(|(from, _)| line.contains(from)).collect();
    let (from, to) = random.pick(&fitting);
    let places: Vec<usize> = line.match_indices(from).map(|(place, _)| place).collect();
    let (front, back) = line.split_at(random.pick(&places));
    format!("{front}{to}{}", &back[from.len()..]).into_bytes()
}

/// Around the greatest length and far beyond it: what is too much stands before, within or behind a good line.
pub fn long(random: &mut Random) -> Vec<u8> {
    let line = lines::any(random).into_bytes();
    let length: usize = random.pick(&[126, 127, 128, 129, 130, 160, 255, 256, 257, 258, 400, 1_000]);
    let more = vec![random.pick(b"0 1,x.\xff\0"); length.saturating_sub(line.len())];
    let begin = line.iter().position(|&byte| byte == b'=').unwrap() + 1;
    match random.below(4) {
        0 => [&more[..], &line].concat(),
        1 => [&line[..], &more].concat(),
        2 => [&line[..begin], &more, &line[begin..]].concat(),
        // A reader that starts afresh behind the greatest length finds a whole line there.
        _ => [&vec![b'x'; random.pick(&[127, 128, 129, 256, 257])][..], &line].concat(),
    }
}
