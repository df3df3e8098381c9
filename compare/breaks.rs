//! Texts that break the form in one place, and texts damaged byte by byte.

use crate::model::text_of;
use crate::random::Random;

const STRANGE: [u8; 22] = *b"0123456789,=\n\r TUFtx-\0";

/// One break of form; the text is otherwise that of a small accepted model.
pub fn break_form(random: &mut Random, mut lines: Vec<String>) -> Vec<u8> {
    match random.below(7) {
        0 => break_number(random, &mut lines),
        1 => too_large(random, &mut lines),
        2 => break_key(random, &mut lines),
        3 => break_symbols(random, &mut lines),
        4 => break_lines(random, &mut lines),
        5 => break_counts(random, &mut lines),
        _ => return break_end(random, &lines),
    }
    text_of(&lines)
}

/// A line chosen among those that begin with one of the keys; there must be one.
fn line_with<'a>(random: &mut Random, lines: &'a mut [String], keys: &[&str]) -> &'a mut String {
    let places: Vec<usize> =
        (0..lines.len()).filter(|&place| keys.iter().any(|key| lines[place].starts_with(key))).collect();
    let place = random.pick(&places);
    &mut lines[place]
}

/// One number of a line, chosen at random, rewritten.
fn rewrite_number(random: &mut Random, lines: &mut [String], rewrite: impl Fn(&str) -> String) {
    let place = random.below(6);
    let line = line_with(random, lines, &["states=", "atoms=", "edge", "node"]);
    let (key, value) = line.split_once('=').unwrap();
    let mut fields: Vec<String> = value.split(',').map(String::from).collect();
    let place = place % fields.len();
    fields[place] = rewrite(&fields[place]);
    *line = format!("{key}={}", fields.join(","));
}

/// One number of a line written in a way that is not allowed.
fn break_number(random: &mut Random, lines: &mut [String]) {
    let way = random.below(10);
    let rewrite = |old: &str| match way {
        0 => format!("0{old}"),
        1 => String::new(),
        2 => format!("+{old}"),
        3 => format!("-{old}"),
        4 => format!(" {old}"),
        5 => format!("{old} "),
        6 => format!("{old},"),
        7 => format!("{old},0"),
        8 => format!("{old}x"),
        _ => format!("00{old}"),
    };
    rewrite_number(random, lines, rewrite);
}

/// One number above 65,535; often one that a narrow counter would take for the old number.
fn too_large(random: &mut Random, lines: &mut [String]) {
    let (step, alike) = (random.pick(&[1u128 << 16, 1 << 32, 1 << 64]), random.chance(70));
    let plain = random.pick(&["65536", "70000", "99999", "100000", "655350"]);
    let rewrite = |old: &str| match alike {
        true => (old.parse::<u128>().unwrap() + step).to_string(),
        false => plain.to_string(),
    };
    rewrite_number(random, lines, rewrite);
}

fn break_key(random: &mut Random, lines: &mut [String]) {
    let place = random.below(lines.len());
    let (key, value) = lines[place].split_once('=').unwrap();
    lines[place] = match random.below(7) {
        0 => format!("{}={value}", key.to_uppercase()),
        1 => format!("{key} ={value}"),
        2 => format!(" {key}={value}"),
        3 => format!("{key}:{value}"),
        4 => format!("{key}{value}"),
        5 => format!("{}={value}", &key[1..]),
        _ => format!("{key}=={value}"),
    };
}

/// An init or label line that is too short, too long, or has another sign.
fn break_symbols(random: &mut Random, lines: &mut [String]) {
    let (way, sign) = (random.below(3), random.pick(&['2', 't', 'X', ' ', '\r', '\0', '9', 'u']));
    let line = line_with(random, lines, &["init=", "label="]);
    let begin = line.find('=').unwrap() + 1;
    match way {
        0 if line.len() > begin => drop(line.pop()),
        1 if line.len() > begin => {
            line.pop();
            line.push(sign);
        }
        _ => line.push(if begin == 5 { '0' } else { 'T' }),
    }
}

/// A line dropped, doubled, exchanged with another kind of line, or an empty one put in.
fn break_lines(random: &mut Random, lines: &mut Vec<String>) {
    let place = random.below(lines.len());
    match random.below(4) {
        0 => drop(lines.remove(place)),
        1 => lines.insert(place, lines[place].clone()),
        2 => lines.insert(place, String::new()),
        _ => {
            let heads = ["states=", "atoms=", "init=", "edges=", "nodes="];
            let at = lines.iter().position(|line| line.starts_with(heads[1 + place % 4])).unwrap();
            lines.swap(at, at - 1);
        }
    }
}

/// A count that is one above what follows.
fn break_counts(random: &mut Random, lines: &mut [String]) {
    let line = line_with(random, lines, &["states=", "atoms=", "edges=", "nodes="]);
    let (key, value) = line.split_once('=').unwrap();
    *line = format!("{key}={}", value.parse::<usize>().unwrap() + 1);
}

/// The end without its line feed, or something after the last line, or carriage returns everywhere.
fn break_end(random: &mut Random, lines: &[String]) -> Vec<u8> {
    let mut text = text_of(lines);
    match random.below(5) {
        0 => drop(text.pop()),
        1 => text.push(b'\n'),
        2 => text.push(b' '),
        3 => text.extend(b"node=0,0,0\n"),
        _ => text = text.iter().flat_map(|&b| if b == b'\n' { vec![b'\r', b'\n'] } else { vec![b] }).collect(),
    }
    text
}

/// One byte changed, dropped or doubled, the text cut, or a byte appended.
pub fn damage(random: &mut Random, text: &mut Vec<u8>) {
    let sign = if random.chance(80) { random.pick(&STRANGE) } else { random.below(256) as u8 };
    if text.is_empty() {
        text.push(sign);
        return;
    }
    let place = random.below(text.len());
    match random.weighted(&[20, 40, 10, 10, 10, 5, 5]) {
        0 => text[place] = sign,
        1 => change_alike(random, text),
        2 => drop(text.remove(place)),
        3 => text.insert(place, text[place]),
        4 => text.truncate(place),
        5 => text.push(sign),
        _ => text.insert(place, sign),
    }
}

/// A digit changed into a digit or a verdict's letter into another, so that the form often stays whole.
fn change_alike(random: &mut Random, text: &mut [u8]) {
    let places: Vec<usize> = (0..text.len()).filter(|&place| b"0123456789TUF".contains(&text[place])).collect();
    if places.is_empty() {
        return;
    }
    let place = random.pick(&places);
    text[place] = if text[place].is_ascii_digit() { random.pick(b"0123456789") } else { random.pick(b"TUF") };
}
