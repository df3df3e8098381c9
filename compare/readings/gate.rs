//! Gates, their ends included: at least a limit, at most a limit, or between two.

/// The limits are voltages or delays.
#[derive(Clone, Copy, Debug)]
pub enum Gate<T> {
    AtLeast(T),
    AtMost(T),
    Between(T, T),
}

impl<T: PartialOrd + Copy> Gate<T> {
    /// The gate of a frame: two limits are always written, at least and at most leave the second alone.
    pub fn of_digit(digit: u8, limits: [T; 2]) -> Gate<T> {
        match digit {
            0 => Gate::AtLeast(limits[0]),
            1 => Gate::AtMost(limits[0]),
            2 => Gate::Between(limits[0], limits[1]),
            _ => panic!("no kind of gate: {digit}"),
        }
    }

    pub fn limits(self) -> Vec<T> {
        match self {
            Gate::AtLeast(limit) | Gate::AtMost(limit) => vec![limit],
            Gate::Between(low, high) => vec![low, high],
        }
    }

    pub fn is_crossed(self) -> bool {
        matches!(self, Gate::Between(low, high) if low > high)
    }

    pub fn holds(self, point: T) -> bool {
        match self {
            Gate::AtLeast(limit) => point >= limit,
            Gate::AtMost(limit) => point <= limit,
            Gate::Between(low, high) => low <= point && point <= high,
        }
    }

    /// Whether the whole gate lies above the point.
    pub fn is_above(self, point: T) -> bool {
        match self {
            Gate::AtLeast(low) | Gate::Between(low, _) => point < low,
            Gate::AtMost(_) => false,
        }
    }

    /// Whether the whole gate lies below the point.
    pub fn is_below(self, point: T) -> bool {
        match self {
            Gate::AtMost(high) | Gate::Between(_, high) => point > high,
            Gate::AtLeast(_) => false,
        }
    }
}
