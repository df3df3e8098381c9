//! Every short word over a few signs: the reader takes exactly those that the grammar's own rules put together.

use super::words;
use std::collections::BTreeMap;

const LONGEST: usize = 7;

/// All texts of up to so many of these signs.
fn texts(signs: &str, longest: usize) -> Vec<String> {
    let mut all = vec![String::new()];
    let mut last = all.clone();
    for _ in 0..longest {
        last = last.iter().flat_map(|text| signs.chars().map(move |sign| format!("{text}{sign}"))).collect();
        all.extend(last.clone());
    }
    all
}

/// The whole numbers that zeros and ones can write, each with its value.
fn wholes(longest: usize) -> Vec<(String, i64)> {
    let longer = texts("01", longest - 1).into_iter().map(|behind| format!("1{behind}"));
    let written =
        longer.map(|text| (text.clone(), text.bytes().fold(0, |sum, sign| sum * 10 + i64::from(sign - b'0'))));
    written.chain([(String::from("0"), 0)]).collect()
}

/// The words of the grammar, put together part by part, each with its digits as a whole number and its power of ten.
fn voltages() -> BTreeMap<String, (i64, i64)> {
    let mut found = BTreeMap::new();
    let behinds =
        texts("01", LONGEST - 2).into_iter().map(|text| if text.is_empty() { text } else { format!(".{text}") });
    let behinds: Vec<String> = behinds.collect();
    let mut powers = vec![(String::new(), 0)];
    for (text, value) in wholes(LONGEST - 2) {
        powers.extend([(format!("e{text}"), value), (format!("e-{text}"), -value)]);
    }
    for (before, _) in wholes(LONGEST) {
        for behind in behinds.iter().filter(|behind| before.len() + behind.len() <= LONGEST) {
            let front = format!("{before}{behind}");
            let digits =
                front.bytes().filter(|&sign| sign != b'.').fold(0, |sum, sign| sum * 10 + i64::from(sign - b'0'));
            for (power, value) in powers.iter().filter(|(power, _)| front.len() + power.len() <= LONGEST) {
                let shift = value - behind.len().saturating_sub(1) as i64;
                if (-22..=22).contains(&shift) {
                    found.insert(format!("{front}{power}"), (digits, shift));
                    found.insert(format!("-{front}{power}"), (-digits, shift));
                }
            }
        }
    }
    found
}

pub fn short_voltages() {
    let right = voltages();
    for text in texts("01.e-", LONGEST) {
        let value = words::voltage(text.as_bytes());
        assert_eq!(value.is_some(), right.contains_key(&text), "{text}");
        let Some((digits, shift)) = value.and(right.get(&text)) else { continue };
        let power: f64 = (0..shift.abs()).map(|_| 10.0).product();
        // Digits and power are exact, so that there is one rounding.
        let expected = if *shift < 0 { *digits as f64 / power } else { *digits as f64 * power };
        assert_eq!(value, Some(expected), "{text}");
        assert_eq!(value.map(f64::is_sign_negative), Some(text.starts_with('-')), "{text}");
    }
}

pub fn short_limits() {
    let right: BTreeMap<String, i64> = wholes(6).into_iter().collect();
    for text in texts("01-+.", 6) {
        let minus = text.strip_prefix('-').and_then(|rest| right.get(rest)).map(|value| -value);
        assert_eq!(words::limit(text.as_bytes()), right.get(&text).copied().or(minus), "{text}");
        assert_eq!(words::counter(text.as_bytes()).map(i64::from), right.get(&text).copied(), "{text}");
    }
}
