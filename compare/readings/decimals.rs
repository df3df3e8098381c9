//! Decimals as whole numbers with a power of ten: spelled in many ways, compared and rounded by whole numbers alone.

use crate::random::Random;
use std::cmp::Ordering;

const MOST: u64 = 999_999_999_999_999;

/// `digits` times ten to the power `shift`, at most 15 digits, the power between -22 and 22.
#[derive(Clone, Copy, Debug)]
pub struct Decimal {
    pub minus: bool,
    pub digits: u64,
    pub shift: i32,
}

/// Short ones, long ones, ones of few digits that need many bits, ones at or near the middle of two doubles.
pub fn any(random: &mut Random) -> Decimal {
    let (minus, short, long) = (random.chance(30), random.below(1_000) as u64, random.next() % (MOST + 1));
    let (digits, shift) = match random.weighted(&[40, 10, 10, 10, 10, 10, 10]) {
        0 => (short, -(random.below(4) as i32)),
        1 => (long, -(random.below(16) as i32)),
        2 => (long, random.below(45) as i32 - 22),
        3 => (random.pick(&[1, 9, MOST, MOST - 1, short, long]), random.pick(&[-22, -21, 21, 22])),
        4 => half_way(random),
        5 => nearly_half_way(random),
        _ => (0, random.below(45) as i32 - 22),
    };
    Decimal { minus, digits, shift }
}

/// An odd number of 54 bits times a power of two: exactly between two doubles.
fn half_way(random: &mut Random) -> (u64, i32) {
    let shift = random.between(2, 22) as u32;
    let (low, high) = ((1u64 << 53) / 5u64.pow(shift) + 1, (1u64 << 54) / 5u64.pow(shift));
    (random.between(low as usize, high as usize - 1) as u64 | 1, shift as i32)
}

/// Of many long decimals the one nearest to the middle of two doubles.
fn nearly_half_way(random: &mut Random) -> (u64, i32) {
    let power = random.between(1, 22) as u32;
    let unit = 10u128.pow(power);
    let from_middle = |digits: &u64| (in_half_steps(*digits, power).0 % (2 * unit)).abs_diff(unit);
    let drawn = (0..100).map(|_| random.next() % MOST + 1);
    (drawn.min_by_key(from_middle).unwrap(), -(power as i32))
}

/// Doubled until the quotient by the power of ten has 54 bits: its last bit is half of the last place.
fn in_half_steps(digits: u64, power: u32) -> (u128, u32) {
    let doubled = |times: &u32| (u128::from(digits) << times) / 10u128.pow(power) >= 1 << 53;
    let times = (0..=64 + digits.leading_zeros()).find(doubled).expect("128 bits are enough");
    (u128::from(digits) << times, times)
}

impl Decimal {
    /// The nearest double, ties to even, by whole numbers.
    pub fn nearest(&self) -> f64 {
        let amount = match u32::try_from(self.shift) {
            Ok(power) => (u128::from(self.digits) * 10u128.pow(power)) as f64,
            Err(_) if self.digits == 0 => 0.0,
            Err(_) => self.nearest_quotient(),
        };
        if self.minus {
            -amount
        } else {
            amount
        }
    }

    fn nearest_quotient(&self) -> f64 {
        let unit = 10u128.pow(self.shift.unsigned_abs());
        let (steps, times) = in_half_steps(self.digits, self.shift.unsigned_abs());
        let (halves, rest) = ((steps / unit) as u64, steps % unit);
        let up = halves % 2 == 1 && (rest > 0 || halves % 4 == 3);
        (halves / 2 + u64::from(up)) as f64 * f64::from_bits(u64::from(1_024 - times) << 52)
    }

    /// The order of the values themselves, which no two of them lose by rounding.
    pub fn order(&self, other: &Decimal) -> Ordering {
        let amounts = self.amount_order(other);
        match (self.minus && self.digits > 0, other.minus && other.digits > 0) {
            (false, false) => amounts,
            (true, true) => amounts.reverse(),
            (true, false) => Ordering::Less,
            (false, true) => Ordering::Greater,
        }
    }

    /// More than 22 powers of ten apart, the one of the higher power is larger unless it is zero.
    fn amount_order(&self, other: &Decimal) -> Ordering {
        let apart = self.shift - other.shift;
        match apart {
            23.. => self.digits.min(1).cmp(&0).then(0.cmp(&other.digits)),
            0.. => (u128::from(self.digits) * 10u128.pow(apart as u32)).cmp(&u128::from(other.digits)),
            _ => other.amount_order(self).reverse(),
        }
    }

    /// The same value, often with zeros behind it.
    pub fn spelled(&self, random: &mut Random) -> String {
        let (mut digits, mut shift) = (self.digits, self.shift);
        while random.chance(70) && digits <= MOST / 10 && shift > -22 {
            (digits, shift) = (digits * 10, shift - 1);
        }
        Decimal { minus: self.minus, digits, shift }.written(random)
    }

    /// These very digits, a point somewhere in them or zeros before them, and an exponent to match.
    fn written(&self, random: &mut Random) -> String {
        let behind = if random.chance(40) { 0 } else { random.below(15) };
        let digits = format!("{:0width$}", self.digits, width = behind + 1);
        let (before, after) = digits.split_at(digits.len() - behind);
        let exponent = match self.shift + behind as i32 {
            0 => String::from(random.pick(&["", "", "", "e0", "e-0"])),
            power => format!("e{power}"),
        };
        format!("{}{before}{}{after}{exponent}", if self.minus { "-" } else { "" }, if behind > 0 { "." } else { "" })
    }
}

/// A digit too many, or a power of ten just out of its range.
pub fn beyond(random: &mut Random) -> String {
    let within = any(random);
    let beyond = match random.below(3) {
        0 => Decimal { digits: MOST + 1 + random.next() % (9 * MOST), ..within },
        1 => Decimal { shift: random.pick(&[23, 23, 24]), ..within },
        _ => Decimal { shift: random.pick(&[-23, -23, -24]), ..within },
    };
    beyond.written(random)
}
