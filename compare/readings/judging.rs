//! The label of a voltage reading, the delay between two counters and its label.

use super::gate::Gate;

pub const NO_GATE: u16 = 21;
const TURN: i64 = 1 << 32;
const HALF_TURN: i64 = TURN / 2;

/// Inside with both ends, or outside on one side; a gate that is none is refused before the reading is looked at.
pub fn voltage(gate: Gate<f64>, [least, greatest]: [f64; 2]) -> Result<char, u16> {
    if gate.limits().iter().any(|limit| limit.is_nan()) || gate.is_crossed() {
        return Err(NO_GATE);
    }
    if least.is_nan() || greatest.is_nan() || least > greatest {
        return Ok('U');
    }
    let inside = gate.holds(least) && gate.holds(greatest);
    let outside = gate.is_above(greatest) || gate.is_below(least);
    assert!(!(inside && outside), "{least} to {greatest} is inside and outside of {gate:?}");
    Ok(match (inside, outside) {
        (true, _) => 'T',
        (_, true) => 'F',
        _ => 'U',
    })
}

/// Later minus earlier on a circle of 2^32 ticks, the half turn counted as negative.
pub fn delay(later: u32, earlier: u32) -> i64 {
    (i64::from(later) - i64::from(earlier) + HALF_TURN).rem_euclid(TURN) - HALF_TURN
}

pub fn ticks(gate: Gate<i64>, delay: i64) -> Result<char, u16> {
    if gate.is_crossed() {
        return Err(NO_GATE);
    }
    Ok(if gate.holds(delay) { 'T' } else { 'F' })
}
