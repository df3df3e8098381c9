//! The cases about measurements that are stored: worked ones, what lies next to a limit, every wrong word and line.

use super::answering::{delay_case, voltage_case};
use super::{judging, texts};
use std::collections::BTreeSet;

const INF: f64 = f64::INFINITY;
const NAN: f64 = f64::NAN;

/// A gate's digit, two limits, the ends of a reading.
#[rustfmt::skip]
const VOLTAGES: &[(u8, [f64; 4])] = &[
    (0, [5.0, 0.0, 5.0, 6.0]), (0, [5.0, NAN, 5.5, 6.0]), (0, [5.0, 0.0, 4.0, 4.5]), (0, [5.0, 0.0, 4.0, 5.0]),
    (1, [5.0, 0.0, 4.0, 5.0]), (1, [5.0, NAN, 4.0, 4.5]), (1, [5.0, 0.0, 5.5, 6.0]), (1, [5.0, 0.0, 5.0, 6.0]),
    (2, [4.5, 5.5, 4.5, 5.5]), (2, [4.5, 5.5, 4.9, 5.1]), (2, [4.5, 5.5, 4.4, 5.5]), (2, [4.5, 5.5, 4.5, 5.6]),
    (2, [4.5, 5.5, 4.4, 5.6]), (2, [4.5, 5.5, 4.0, 4.4]), (2, [4.5, 5.5, 5.6, 6.0]), (2, [4.5, 5.5, 4.0, 4.5]),
    (2, [4.5, 5.5, 5.5, 6.0]), (2, [5.0, 5.0, 5.0, 5.0]), (2, [5.0, 5.0, 4.0, 5.0]), (2, [5.0, 4.0, 4.5, 4.5]),
    (2, [5.0, 4.0, NAN, 4.5]), (2, [NAN, 4.0, 1.0, 2.0]), (2, [4.0, NAN, 1.0, 2.0]), (2, [NAN, NAN, 1.0, 2.0]),
    (2, [NAN, 4.0, NAN, NAN]), (0, [NAN, 0.0, 1.0, 2.0]), (1, [NAN, 0.0, 1.0, 2.0]), (0, [NAN, 0.0, 2.0, 1.0]),
    (1, [NAN, 0.0, NAN, 1.0]), (0, [5.0, 0.0, NAN, 6.0]), (0, [5.0, 0.0, 6.0, NAN]), (0, [5.0, 0.0, NAN, NAN]),
    (1, [5.0, 0.0, NAN, 4.0]), (1, [5.0, 0.0, 4.0, NAN]), (2, [4.0, 5.0, NAN, 4.5]), (2, [4.0, 5.0, 4.5, NAN]),
    (0, [5.0, 0.0, 7.0, 6.0]), (0, [5.0, 0.0, 4.0, 3.0]), (1, [5.0, 0.0, 4.0, 3.0]), (2, [4.0, 5.0, 4.6, 4.5]),
    (0, [0.0, 0.0, -0.0, -0.0]), (0, [-0.0, 0.0, 0.0, 0.0]), (1, [-0.0, 0.0, 0.0, 0.0]), (1, [0.0, 0.0, -0.0, 0.0]),
    (2, [0.0, -0.0, 0.0, -0.0]), (2, [-0.0, 0.0, 0.0, -0.0]), (2, [0.0, -0.0, -1.0, 1.0]), (0, [-INF, 0.0, -INF, INF]),
    (0, [INF, 0.0, INF, INF]), (0, [INF, 0.0, 1.0, INF]), (0, [INF, 0.0, 1.0, f64::MAX]), (1, [INF, 0.0, -INF, INF]),
    (1, [-INF, 0.0, -INF, -INF]), (1, [-INF, 0.0, f64::MIN, 1.0]), (1, [-INF, 0.0, -INF, 1.0]),
    (0, [1.0, 0.0, INF, -INF]), (2, [-INF, INF, -INF, INF]), (2, [-INF, INF, INF, -INF]), (2, [INF, -INF, 1.0, 2.0]),
    (2, [-INF, INF, NAN, INF]), (2, [-INF, -INF, -INF, 1.0]), (2, [INF, INF, INF, INF]),
    (2, [0.1, 0.3, 0.1 + 0.2, 0.1 + 0.2]),
];

/// All stored cases, none of them twice.
pub fn cases() -> Vec<Vec<u8>> {
    let by_hand = VOLTAGES.iter().map(|(digit, values)| voltage_case(*digit, values.map(pattern))).collect();
    let parts = [by_hand, beside(), no_numbers(), delays(), crossed_delays(), texts::cases()];
    let mut seen = BTreeSet::new();
    parts.concat().into_iter().filter(|case| seen.insert(case.clone())).collect()
}

/// Which of the NaNs the standard library's is may differ from one compiler to the next.
fn pattern(value: f64) -> u64 {
    if value.is_nan() {
        0x7ff8_0000_0000_0000
    } else {
        value.to_bits()
    }
}

/// Ends that are a limit or whose pattern is the next one or the one before, across NaNs and zeros too.
fn beside() -> Vec<Vec<u8>> {
    let limits = [1.0, -1.0, 0.0, -0.0, f64::from_bits(1), f64::MIN_POSITIVE, f64::MAX, f64::MIN, INF, -INF];
    let mut found = Vec::new();
    for limit in limits.map(f64::to_bits) {
        let around = [limit.wrapping_sub(1), limit, limit.wrapping_add(1)];
        for (least, greatest) in around.iter().flat_map(|&least| around.map(|greatest| (least, greatest))) {
            found.extend([0, 1].map(|digit| voltage_case(digit, [limit, 0, least, greatest])));
            found.push(voltage_case(2, [limit, limit, least, greatest]));
        }
    }
    found
}

/// Every kind of NaN as each limit and each end, and as the limit that isn't used.
fn no_numbers() -> Vec<Vec<u8>> {
    let [one, two] = [1.0f64, 2.0].map(f64::to_bits);
    let mut found = Vec::new();
    for fraction in [1, (1 << 51) - 1, 1 << 51, (1 << 52) - 1] {
        for nan in [0x7ff << 52 | fraction, 0xfff << 52 | fraction] {
            found.extend([0, 1, 2].map(|digit| voltage_case(digit, [nan, two, one, two])));
            found.extend([0, 1, 2].map(|digit| voltage_case(digit, [one, nan, one, one])));
            found.extend([0, 1, 2].map(|digit| voltage_case(digit, [one, two, nan, two])));
            found.extend([0, 1, 2].map(|digit| voltage_case(digit, [one, two, one, nan])));
        }
    }
    found
}

/// Counters at the ends of the circle and of its halves, each delay with limits on it and next to it.
fn delays() -> Vec<Vec<u8>> {
    const HALF: u32 = 1 << 31;
    const LAST: u32 = u32::MAX;
    let pairs =
        [[3, 5], [2, LAST], [5, 3], [LAST, 2], [0, 0], [LAST, LAST], [0, LAST], [LAST, 0], [HALF, 0], [0, HALF]];
    let more =
        [[HALF - 1, 0], [HALF + 1, 0], [0, HALF - 1], [0, HALF + 1], [LAST, HALF - 1], [LAST, HALF], [HALF, HALF]];
    let mut found = Vec::new();
    for [later, earlier] in pairs.into_iter().chain(more) {
        let delay = judging::delay(later, earlier) as i32;
        let (below, above) = (delay.saturating_sub(1), delay.saturating_add(1));
        for (digit, first, second) in
            [(0, below, 0), (0, delay, 0), (0, above, 0), (1, below, -1), (1, delay, -1), (1, above, -1)]
        {
            found.push(delay_case(digit, [first, second], [later, earlier]));
        }
        for limits in [[delay, delay], [below, above], [above, i32::MAX], [i32::MIN, below], [i32::MIN, i32::MAX]] {
            found.push(delay_case(2, limits, [later, earlier]));
        }
    }
    found
}

fn crossed_delays() -> Vec<Vec<u8>> {
    let limits = [[1, 0], [0, -1], [i32::MAX, i32::MIN], [i32::MIN + 1, i32::MIN], [-2, -3], [0, 0], [-1, 0], [-1, 1]];
    let pairs = limits.into_iter().flat_map(|limits| [[3, 5], [5, 3], [1 << 31, 0]].map(|counters| (limits, counters)));
    pairs.flat_map(|(limits, counters)| [0, 1, 2].map(|digit| delay_case(digit, limits, counters))).collect()
}
