//! Lines of the label desk that are in the form, without their line feeds.

use super::counters::{self, Delay};
use super::decimals::{self, Decimal};
use crate::random::Random;

pub fn any(random: &mut Random) -> String {
    if random.chance(65) {
        volts(random)
    } else {
        ticks(random)
    }
}

fn gate(digit: u8, limits: &[String; 2]) -> String {
    let [first, second] = limits;
    match digit {
        0 => format!("atleast={first}"),
        1 => format!("atmost={first}"),
        _ => format!("between={first},{second}"),
    }
}

/// Limits and ends have much to do with each other: equal values in other spellings, values just beside.
fn volts(random: &mut Random) -> String {
    let (digit, base) = (random.below(3) as u8, decimals::any(random));
    let mut pair = |unordered: usize| {
        let pair = [voltage(random, base), voltage(random, base)];
        uncrossed(pair, random.chance(unordered))
    };
    let (mut limits, ends) = (pair(if digit == 2 { 15 } else { 100 }), pair(8));
    if random.chance(7) {
        limits[if digit == 2 { random.below(2) } else { 0 }] = String::from("nan");
    }
    format!("{} volts={}", gate(digit, &limits), ends.join(","))
}

/// A NaN is left where it is.
fn uncrossed([low, high]: [String; 2], left_alone: bool) -> [String; 2] {
    let value = |word: &str| word.parse::<f64>().expect("a number");
    if !left_alone && value(&low) > value(&high) {
        [high, low]
    } else {
        [low, high]
    }
}

fn voltage(random: &mut Random, base: Decimal) -> String {
    let decimal = match random.weighted(&[32, 12, 12, 5, 27, 12]) {
        0 => base,
        1 => Decimal { digits: (base.digits + 1).min(999_999_999_999_999), ..base },
        2 => Decimal { digits: base.digits.saturating_sub(1), ..base },
        3 => Decimal { minus: !base.minus, ..base },
        4 => decimals::any(random),
        _ => return String::from(random.pick(&["inf", "inf", "-inf", "-inf", "0", "-0", "nan"])),
    };
    decimal.spelled(random)
}

fn ticks(random: &mut Random) -> String {
    let drawn = if random.chance(10) { counters::crossed(random) } else { counters::sound(random) };
    let Delay { digit, limits, counters: [later, earlier] } = drawn;
    let limits = limits.map(|limit| if limit == 0 { random.pick(&["0", "-0"]).to_string() } else { limit.to_string() });
    format!("{} ticks={later},{earlier}", gate(digit, &limits))
}
