//! Random cases about measurements, by their number modulo 20:
//!    0 and 1  V, four patterns as they come: NaNs, zeros, infinities, subnormal, ordinary and random ones
//!    2        V, ordinary decimals
//!    3 to 5   V, ends that are a limit or next to one; equal ends, equal limits
//!    6        V, a gate with a NaN or crossed limits (21)
//!    7        V, a reading with a NaN or crossed ends
//!    8 to 10  D, limits around the delay, extreme or anywhere
//!   11        D, crossed limits (21)
//!   12 to 14  L, up to 12 lines in the form
//!   15 to 17  L, up to 12 lines, most of them broken
//!   18        L, one line, good or broken
//!   19        L, many lines or long ones, every tenth time about as many bytes as are allowed

use super::answering::{desk_case, MOST_BYTES};
use super::{breaking, counters, lines, voltages};
use crate::generate::sure;
use crate::random::Random;

/// Far from every case number of the other mixtures, so that no two cases share their random numbers.
const BEGIN: u64 = 1 << 33;

/// Case number `number` of a seed.
pub fn case(seed: u64, number: usize) -> Vec<u8> {
    let mut random = Random::of_case(seed, BEGIN + number as u64);
    match number % 20 {
        0 | 1 => voltages::free(&mut random),
        2 => voltages::everyday(&mut random),
        3..=5 => voltages::at_limits(&mut random),
        6 => sure(voltages::refused(&mut random), 21),
        7 => voltages::no_reading(&mut random),
        8..=10 => counters::sound(&mut random).case(),
        11 => counters::crossed(&mut random).case(),
        12..=14 => several(&mut random, 12, 0),
        15..=17 => several(&mut random, 12, 70),
        18 => several(&mut random, 1, 50),
        _ if number / 20 % 10 == 9 => full(&mut random),
        _ => at_limit(&mut random),
    }
}

fn line(random: &mut Random, broken: usize) -> Vec<u8> {
    if random.chance(broken) {
        breaking::any(random)
    } else {
        lines::any(random).into_bytes()
    }
}

/// Up to so many lines, so many percent of them broken; the last line feed may be missing.
fn several(random: &mut Random, most: usize, broken: usize) -> Vec<u8> {
    let lines: Vec<Vec<u8>> = (0..random.between(1, most)).map(|_| line(random, broken)).collect();
    let mut text = lines.join(&b'\n');
    if broken == 0 || random.chance(85) {
        text.push(b'\n');
    }
    desk_case(&text)
}

/// Long lines between others, many empty lines, many lines, bytes that are no text, or nothing at all.
fn at_limit(random: &mut Random) -> Vec<u8> {
    let count = random.between(2, 60);
    let text: Vec<u8> = match random.below(6) {
        0 | 1 => {
            let lines = (0..count.min(8)).map(|place| match place % 2 {
                0 => breaking::long(random),
                _ => line(random, 20),
            });
            lines.collect::<Vec<_>>().join(&b'\n')
        }
        2 => vec![b'\n'; count],
        3 => (0..count).flat_map(|_| [&line(random, 30)[..], b"\n"].concat()).collect(),
        4 => (0..10 * count).map(|_| random.below(256) as u8).collect(),
        _ => b"\r\n".repeat(random.below(3)),
    };
    desk_case(&text)
}

/// As many bytes as a frame holds, or a few less: good lines, one line, or line feeds among good lines.
fn full(random: &mut Random) -> Vec<u8> {
    let room = MOST_BYTES - 2 - random.below(3);
    let kind = random.below(3);
    let mut text = if kind == 1 { vec![random.pick(b"1 x\0\r"); room - 100] } else { Vec::new() };
    while text.len() < room {
        text.extend(lines::any(random).into_bytes());
        text.extend(vec![b'\n'; if kind == 2 { random.between(1, 3) } else { 1 }]);
    }
    text.truncate(room);
    desk_case(&text)
}
