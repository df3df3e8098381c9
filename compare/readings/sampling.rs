//! Labels held to points: a reading is judged by whether the gate holds points of it, one after the other.

use super::answering::{answer, voltage_case};
use super::gate::Gate;
use super::{judging, mixture};

/// The double before or behind another in their order; the zeros are one step apart.
fn step(value: f64, up: bool) -> f64 {
    let bits = value.to_bits();
    let away = up == (bits >> 63 == 0);
    let other_zero = bits << 1 == 0 && !away;
    f64::from_bits(match (other_zero, away) {
        (true, _) => bits ^ 1 << 63,
        (false, true) => bits + 1,
        (false, false) => bits - 1,
    })
}

/// The ends, the limits, zeros and infinities, and what lies next to them, as far as they are between the ends.
fn points(gate: Gate<f64>, least: f64, greatest: f64) -> Vec<f64> {
    let mut found = gate.limits();
    found.extend([least, greatest, 0.0, -0.0, f64::INFINITY, f64::NEG_INFINITY, least / 2.0 + greatest / 2.0]);
    for point in found.clone().into_iter().filter(|point| point.is_finite()) {
        found.extend([step(point, true), step(point, false), step(step(point, true), true)]);
    }
    found.retain(|&point| least <= point && point <= greatest);
    found
}

fn is_gate(gate: Gate<f64>) -> bool {
    match gate {
        Gate::AtLeast(limit) | Gate::AtMost(limit) => limit == limit,
        Gate::Between(low, high) => low <= high,
    }
}

/// A reading without points, with a NaN or crossed, is unknown.
fn by_points(gate: Gate<f64>, least: f64, greatest: f64) -> Result<char, u16> {
    if !is_gate(gate) {
        return Err(21);
    }
    let held: Vec<bool> = points(gate, least, greatest).iter().map(|&point| gate.holds(point)).collect();
    Ok(match (held.contains(&true), held.contains(&false)) {
        (true, false) => 'T',
        (false, true) => 'F',
        _ => 'U',
    })
}

/// Every gate and every reading made of a few values, then those of the mixture.
pub fn run() {
    let tiny = f64::from_bits(1);
    let some =
        [f64::NEG_INFINITY, -1.0, -tiny, -0.0, 0.0, tiny, 1.0, step(1.0, true), f64::INFINITY, f64::NAN, -f64::NAN];
    let pairs: Vec<[f64; 2]> = some.iter().flat_map(|&one| some.iter().map(move |&other| [one, other])).collect();
    for limits in &pairs {
        for [least, greatest] in &pairs {
            (0..3).for_each(|digit| held(Gate::of_digit(digit, *limits), *least, *greatest));
        }
    }
    for case in (0..20_000).map(|number| mixture::case(13, number)).filter(|case| case[0] == b'V') {
        let lines: Vec<&str> = std::str::from_utf8(&case).unwrap().lines().collect();
        let patterns = [2, 3, 4, 5].map(|place| u64::from_str_radix(lines[place], 16).unwrap());
        let digit: u8 = lines[1].parse().unwrap();
        assert_eq!(voltage_case(digit, patterns), case);
        let [first, second, least, greatest] = patterns.map(f64::from_bits);
        let gate = Gate::of_digit(digit, [first, second]);
        held(gate, least, greatest);
        let label = by_points(gate, least, greatest).map_or_else(|number| format!("answer={number}"), String::from);
        assert_eq!(answer(&case), Some(label + "\n"));
    }
}

fn held(gate: Gate<f64>, least: f64, greatest: f64) {
    let label = judging::voltage(gate, [least, greatest]);
    assert_eq!(label, by_points(gate, least, greatest), "{gate:?}, {least:e} to {greatest:e}");
}
