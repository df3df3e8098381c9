//! Voltages and delays by hand, and this program held to other ways of saying the rules.

use super::answering::{answer, delay_case, voltage_case};
use super::{desk_selftest, every, judging, listed, mixture, sampling};
use crate::random::Random;
use std::collections::BTreeSet;

const INF: f64 = f64::INFINITY;
const NAN: f64 = f64::NAN;

pub fn run() {
    voltages();
    delays();
    desk_selftest::run();
    every::short_voltages();
    every::short_limits();
    sampling::run();
    made_cases();
}

fn answered(case: Vec<u8>) -> String {
    answer(&case).expect("a case about measurements")
}

/// A reading's labels for at least 5, at most 5, between 4 and 5.
fn labels(least: f64, greatest: f64) -> String {
    let gates = [(0, 5.0, NAN), (1, 5.0, -1.0), (2, 4.0, 5.0)];
    let one = |(digit, first, second): (u8, f64, f64)| {
        answered(voltage_case(digit, [first, second, least, greatest].map(f64::to_bits)))
    };
    gates.map(one).concat().replace('\n', "")
}

fn voltages() {
    assert_eq!(labels(5.0, 6.0), "TUU");
    assert_eq!(labels(5.5, 6.0), "TFF");
    assert_eq!(labels(3.0, 3.5), "FTF");
    assert_eq!(labels(4.0, 5.0), "UTT");
    assert_eq!(labels(5.0, 5.0), "TTT");
    assert_eq!(labels(3.0, 6.0), "UUU");
    assert_eq!(labels(5.0, INF), "TUU");
    assert_eq!(labels(-INF, 3.0), "FTF");
    assert_eq!(labels(INF, INF), "TFF");
    for (least, greatest) in [(NAN, 6.0), (6.0, NAN), (-NAN, NAN), (6.0, 5.5), (INF, -INF)] {
        assert_eq!(labels(least, greatest), "UUU");
    }
    let label = |digit: u8, values: [f64; 4]| answered(voltage_case(digit, values.map(f64::to_bits)));
    assert_eq!(label(0, [0.0, 0.0, -0.0, -0.0]), "T\n");
    assert_eq!(label(1, [-0.0, 0.0, 0.0, 0.0]), "T\n");
    assert_eq!(label(2, [0.0, -0.0, 0.0, -0.0]), "T\n");
    assert_eq!(label(0, [-INF, 0.0, -INF, INF]), "T\n");
    assert_eq!(label(0, [INF, 0.0, 1.0, f64::MAX]), "F\n");
    assert_eq!(label(2, [0.1, 0.3, 0.1 + 0.2, 0.1 + 0.2]), "F\n");
    for ends in [[1.0, 2.0], [2.0, 1.0], [NAN, 1.0]] {
        for (digit, first, second) in [(0, NAN, 1.0), (1, -NAN, 1.0), (2, NAN, 1.0), (2, 1.0, NAN), (2, 2.0, 1.0)] {
            assert_eq!(label(digit, [first, second, ends[0], ends[1]]), "answer=21\n");
        }
    }
}

fn delays() {
    let delay = |digit: u8, limits: [i32; 2], counters: [u32; 2]| answered(delay_case(digit, limits, counters));
    assert_eq!(delay(0, [-2, 0], [3, 5]), "delay=-2\nT\n");
    assert_eq!(delay(0, [-1, 0], [3, 5]), "delay=-2\nF\n");
    assert_eq!(delay(1, [3, 0], [2, u32::MAX]), "delay=3\nT\n");
    assert_eq!(delay(1, [2, 0], [2, u32::MAX]), "delay=3\nF\n");
    assert_eq!(delay(2, [i32::MIN, i32::MIN], [0, 1 << 31]), "delay=-2147483648\nT\n");
    assert_eq!(delay(2, [0, i32::MAX], [i32::MAX as u32, 0]), "delay=2147483647\nT\n");
    assert_eq!(delay(2, [0, i32::MAX], [0, 1]), "delay=-1\nF\n");
    assert_eq!(delay(2, [1, 0], [3, 5]), "delay=-2\nanswer=21\n");
    let mut random = Random::of_case(14, 0);
    for number in 0..100_000u32 {
        let (later, far) = (random.next() as u32, random.next() as u32);
        let earlier =
            if number % 2 == 0 { far } else { later.wrapping_add(1 << 31).wrapping_add(number % 7).wrapping_sub(3) };
        assert_eq!(judging::delay(later, earlier), i64::from(later.wrapping_sub(earlier) as i32));
    }
}

/// Each made case has its form and an answer, and the stored ones differ from each other.
fn made_cases() {
    let listed = listed::cases();
    assert_eq!(listed.iter().collect::<BTreeSet<_>>().len(), listed.len());
    for case in listed.into_iter().chain((0..4_000).map(|number| mixture::case(16, number))) {
        let (lines, answers) = (case[2..].split_inclusive(|&byte| byte == b'\n').count(), answer(&case).unwrap());
        let expected = match case[0] {
            b'V' => 1,
            b'D' => 2,
            _ => lines,
        };
        assert_eq!(answers.lines().count(), expected);
    }
}
