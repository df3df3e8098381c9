//! Frames about voltages: gates and readings made of bit patterns.

use super::answering::voltage_case;
use super::patterns::{is_crossed, is_nan, nan, near, number, ordinary, uncrossed};
use crate::random::Random;

/// At least and at most leave the second limit alone, so anything may stand there.
fn limits(random: &mut Random, digit: u8, limits: [u64; 2]) -> [u64; 2] {
    let unused = [0, nan(random), random.next(), limits[1]];
    if digit == 2 {
        limits
    } else {
        [limits[0], random.pick(&unused)]
    }
}

/// A gate that is one; now and then both limits are equal or next to each other.
fn gate(random: &mut Random, mut draw: impl FnMut(&mut Random) -> u64) -> (u8, [u64; 2]) {
    let (digit, first, second) = (random.below(3) as u8, draw(random), draw(random));
    let next = first.wrapping_add(1);
    let second = match random.weighted(&[70, 20, 10]) {
        1 => first,
        2 if !is_nan(next) => next,
        _ => second,
    };
    let drawn = if digit == 2 { uncrossed([first, second]) } else { [first, second] };
    (digit, limits(random, digit, drawn))
}

fn asked((digit, limits): (u8, [u64; 2]), ends: [u64; 2]) -> Vec<u8> {
    voltage_case(digit, [limits[0], limits[1], ends[0], ends[1]])
}

/// Four patterns as they come, NaNs among them.
pub fn free(random: &mut Random) -> Vec<u8> {
    let mut any = || if random.chance(5) { nan(random) } else { number(random) };
    let (limits, ends) = ([any(), any()], [any(), any()]);
    let (digit, ends) = (random.below(3) as u8, if random.chance(70) { uncrossed(ends) } else { ends });
    let limits = if digit == 2 && random.chance(70) { uncrossed(limits) } else { limits };
    asked((digit, limits), ends)
}

pub fn everyday(random: &mut Random) -> Vec<u8> {
    let gate = gate(random, ordinary);
    let least = ordinary(random);
    let ends = [least, if random.chance(20) { least } else { ordinary(random) }];
    asked(gate, uncrossed(ends))
}

/// Ends that are a limit, lie next to one, or are far away.
pub fn at_limits(random: &mut Random) -> Vec<u8> {
    let gate = gate(random, number);
    let used = if gate.0 == 2 { &gate.1[..] } else { &gate.1[..1] };
    let mut end = || {
        let limit = random.pick(used);
        if random.chance(80) {
            near(random, limit)
        } else {
            number(random)
        }
    };
    let (least, other) = (end(), end());
    let ends = [least, if random.chance(30) { least } else { other }];
    asked(gate, if random.chance(92) { uncrossed(ends) } else { ends })
}

/// A limit that is a NaN, or crossed limits; the reading may be anything.
pub fn refused(random: &mut Random) -> Vec<u8> {
    let digit = random.below(3) as u8;
    let (mut first, mut second) = (number(random), number(random));
    match random.below(4) {
        0 if digit == 2 => second = nan(random),
        1 | 2 if digit == 2 => {
            while !is_crossed([first, second]) {
                (first, second) = (number(random), number(random));
            }
        }
        _ => first = nan(random),
    }
    let limits = limits(random, digit, [first, second]);
    let mut end = || if random.chance(15) { nan(random) } else { number(random) };
    asked((digit, limits), [end(), end()])
}

/// A reading with a NaN or with crossed ends, its gate a gate.
pub fn no_reading(random: &mut Random) -> Vec<u8> {
    let gate = gate(random, number);
    let [low, high] = uncrossed([near(random, gate.1[0]), number(random)]);
    let nans = [nan(random), nan(random)];
    asked(gate, random.pick(&[[nans[0], high], [low, nans[0]], nans, [high, low], [high, low]]))
}
