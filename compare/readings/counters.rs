//! Frames about delays: counters anywhere and at the ends of their range, limits around the delay between them.

use super::answering::delay_case;
use super::judging;
use crate::random::Random;

const HALF: u32 = 1 << 31;
/// Where counters stand and how far they are apart: the ends of the circle and of its halves.
const PLACES: [u32; 11] = [0, 1, 2, HALF - 2, HALF - 1, HALF, HALF + 1, HALF + 2, u32::MAX - 2, u32::MAX - 1, u32::MAX];

/// A gate's digit, two limits, the later and the earlier counter.
pub struct Delay {
    pub digit: u8,
    pub limits: [i32; 2],
    pub counters: [u32; 2],
}

impl Delay {
    pub fn case(&self) -> Vec<u8> {
        delay_case(self.digit, self.limits, self.counters)
    }
}

fn counters(random: &mut Random) -> [u32; 2] {
    let mut any = || if random.chance(50) { random.pick(&PLACES) } else { random.next() as u32 };
    let (earlier, other) = (any(), any());
    let near = random.between(0, 2_000) as u32;
    let later = match random.weighted(&[45, 25, 30]) {
        0 => earlier.wrapping_add(random.pick(&PLACES)),
        1 => earlier.wrapping_add(near).wrapping_sub(1_000),
        _ => other,
    };
    [later, earlier]
}

fn limit(random: &mut Random, delay: i32) -> i32 {
    match random.weighted(&[15, 30, 15, 10, 30]) {
        0 => delay,
        1 => delay.saturating_add(random.pick(&[-2, -1, 1, 2])),
        2 => random.pick(&[i32::MIN, i32::MIN + 1, i32::MAX - 1, i32::MAX]),
        3 => random.pick(&[-1, 0, 1]),
        _ => random.next() as i32,
    }
}

/// Limits as they come; those of between are put in order.
pub fn sound(random: &mut Random) -> Delay {
    let (digit, counters) = (random.below(3) as u8, counters(random));
    let delay = judging::delay(counters[0], counters[1]) as i32;
    let first = limit(random, delay);
    let second = if random.chance(15) { first } else { limit(random, delay) };
    let limits = if digit == 2 { [first.min(second), first.max(second)] } else { [first, second] };
    Delay { digit, limits, counters }
}

pub fn crossed(random: &mut Random) -> Delay {
    let Delay { limits: [first, second], counters, .. } = sound(random);
    let (low, high) = (first.min(second), first.max(second));
    let (low, high) = if low < high { (low, high) } else { (low.saturating_sub(1), high.max(i32::MIN + 1)) };
    Delay { digit: 2, limits: [high, low], counters }
}
