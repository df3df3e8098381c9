//! Bit patterns of voltages: NaNs, numbers of every kind, and what lies next to them.

use crate::random::Random;

const SIGN: u64 = 1 << 63;
const INFINITE: u64 = 0x7ff0_0000_0000_0000;
const QUIET: u64 = 1 << 51;
/// Zero, the ends of the subnormal and of the normal numbers, one, the greatest numbers, infinity.
const SPECIAL: [u64; 9] =
    [0, 0, 1, QUIET * 2 - 1, QUIET * 2, 0x3ff0_0000_0000_0000, INFINITE - 2, INFINITE - 1, INFINITE];

fn sign(random: &mut Random) -> u64 {
    random.pick(&[0, SIGN])
}

/// Quiet or signalling, of both signs, the payload at its ends or anywhere.
pub fn nan(random: &mut Random) -> u64 {
    let payload = random.next() % QUIET;
    let fraction = random.pick(&[1, QUIET - 1, payload.max(1), QUIET, QUIET + 1, QUIET + payload, QUIET * 2 - 1]);
    sign(random) | INFINITE | fraction
}

/// Any pattern but a NaN.
pub fn number(random: &mut Random) -> u64 {
    let pattern = match random.weighted(&[25, 25, 15, 35]) {
        0 => random.next(),
        1 => random.pick(&SPECIAL) | sign(random),
        2 => random.next() % (QUIET * 2) | sign(random),
        _ => ordinary(random),
    };
    if is_nan(pattern) {
        return number(random);
    }
    pattern
}

/// A number as people write it, with up to three digits behind the point.
pub fn ordinary(random: &mut Random) -> u64 {
    let (thousandths, step) = (random.between(0, 12_000) as f64 - 6_000.0, random.pick(&[1.0, 10.0, 250.0, 1_000.0]));
    ((thousandths / step).trunc() * step / 1_000.0).to_bits()
}

pub fn is_nan(pattern: u64) -> bool {
    f64::from_bits(pattern).is_nan()
}

pub fn is_crossed([low, high]: [u64; 2]) -> bool {
    f64::from_bits(low) > f64::from_bits(high)
}

pub fn uncrossed([low, high]: [u64; 2]) -> [u64; 2] {
    if is_crossed([low, high]) {
        [high, low]
    } else {
        [low, high]
    }
}

/// A limit, the pattern next to it, or the zero of the other sign.
pub fn near(random: &mut Random, limit: u64) -> u64 {
    match random.weighted(&[25, 32, 32, 11]) {
        1 => limit.wrapping_add(1),
        2 => limit.wrapping_sub(1),
        3 if limit << 1 == 0 => limit ^ SIGN,
        _ => limit,
    }
}
