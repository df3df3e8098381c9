//! The label desk's numbers, read by their grammar: voltages, limits of a delay, counters. What isn't one is nothing.

const MOST_DIGITS: usize = 15;
const SHIFTS: std::ops::RangeInclusive<i64> = -22..=22;

pub fn voltage(word: &[u8]) -> Option<f64> {
    match word {
        b"nan" => Some(f64::NAN),
        b"inf" => Some(f64::INFINITY),
        b"-inf" => Some(f64::NEG_INFINITY),
        _ => decimal(word),
    }
}

pub fn limit(word: &[u8]) -> Option<i64> {
    signed(word).filter(|&number| i32::try_from(number).is_ok())
}

pub fn counter(word: &[u8]) -> Option<u32> {
    whole(word).and_then(|number| u32::try_from(number).ok())
}

/// The form is judged here, the value is the standard library's.
fn decimal(word: &[u8]) -> Option<f64> {
    let (front, power) = cut(without_minus(word), b'e');
    let (before, behind) = cut(front, b'.');
    let behind_count = behind.map_or(0, <[u8]>::len);
    let in_form = is_whole(before) && behind.map_or(true, is_digits);
    let shift = power.map_or(Some(0), signed)?.saturating_sub(behind_count as i64);
    if !in_form || before.len() + behind_count > MOST_DIGITS || !SHIFTS.contains(&shift) {
        return None;
    }
    std::str::from_utf8(word).ok()?.parse().ok()
}

/// What stands before the first such sign, and what stands behind it if there is one.
fn cut(word: &[u8], sign: u8) -> (&[u8], Option<&[u8]>) {
    match word.iter().position(|&byte| byte == sign) {
        None => (word, None),
        Some(place) => (&word[..place], Some(&word[place + 1..])),
    }
}

fn without_minus(word: &[u8]) -> &[u8] {
    word.strip_prefix(b"-").unwrap_or(word)
}

fn is_digits(word: &[u8]) -> bool {
    !word.is_empty() && word.iter().all(u8::is_ascii_digit)
}

/// Digits without leading zeros; a single zero is none.
fn is_whole(word: &[u8]) -> bool {
    is_digits(word) && (word.len() == 1 || word[0] != b'0')
}

/// A number too large for 64 bits is out of every range that is asked for.
fn whole(word: &[u8]) -> Option<i64> {
    std::str::from_utf8(word).ok().filter(|_| is_whole(word))?.parse().ok()
}

fn signed(word: &[u8]) -> Option<i64> {
    let number = whole(without_minus(word))?;
    Some(if word.starts_with(b"-") { -number } else { number })
}
