//! The label desk by hand: lines, words and texts, and the values of its decimals.

use super::answering::{answer, desk_case};
use super::decimals::{self, Decimal};
use super::{desk, lines, right, words, wrong};
use crate::random::Random;

pub fn run() {
    by_hand();
    right_and_wrong_words();
    values();
    texts();
    decimal_values();
}

fn text(text: &str) -> String {
    answer(&desk_case(text.as_bytes())).expect("a case for the label desk")
}

/// Every kind of line, and that a break of form comes before a refusal.
fn by_hand() {
    let lines = [
        ("atleast=5 volts=5.0,6", "T"),
        ("atleast=-1.5e-3 volts=-0.0015,inf", "T"),
        ("atmost=0.3 volts=-inf,30e-2", "T"),
        ("atmost=1e22 volts=0,1.1e22", "U"),
        ("between=4.5,5.5 volts=5.6,6", "F"),
        ("between=-0,0 volts=0,-0", "T"),
        ("atleast=1 volts=2,1", "U"),
        ("atleast=1 volts=nan,1", "U"),
        ("atleast=nan volts=2,1", "answer=21"),
        ("between=2,1 volts=nan,1", "answer=21"),
        ("between=2,1 volts=nan,1.", "answer=19"),
        ("between=-2,-2 ticks=3,5", "T"),
        ("atleast=4 ticks=2,4294967295", "F"),
        ("atmost=-0 ticks=7,7", "T"),
        ("between=-2147483648,2147483647 ticks=0,2147483648", "T"),
        ("between=0,-1 ticks=3,5", "answer=21"),
        ("between=0,-1 ticks=3,-5", "answer=19"),
        ("atleast=nan ticks=3,5", "answer=19"),
        ("atleast=1.0 ticks=3,5", "answer=19"),
        ("", "answer=19"),
    ];
    for (line, label) in lines {
        assert_eq!(text(&format!("{line}\n")), format!("{label}\n"), "{line}");
    }
    for line in wrong::LINES {
        assert_eq!(desk::label(line), Err(19), "{}", String::from_utf8_lossy(line));
    }
}

fn right_and_wrong_words() {
    assert!(right::VOLTAGES.iter().all(|word| words::voltage(word.as_bytes()).is_some()));
    assert!(right::LIMITS.iter().all(|word| words::limit(word.as_bytes()).is_some()));
    assert!(right::COUNTERS.iter().all(|word| words::counter(word.as_bytes()).is_some()));
    for word in wrong::VOLTAGES {
        assert_eq!(words::voltage(word.as_bytes()), None, "{word}");
    }
    for word in wrong::LIMITS {
        assert_eq!(words::limit(word.as_bytes()), None, "{word}");
    }
    for word in wrong::COUNTERS {
        assert_eq!(words::counter(word.as_bytes()), None, "{word}");
    }
}

/// Patterns written down from elsewhere, and equal values in other spellings.
fn values() {
    let bits = |word: &str| words::voltage(word.as_bytes()).map(f64::to_bits);
    assert_eq!(bits("-0"), Some(1 << 63));
    assert_eq!(bits("-0.00e-20"), Some(1 << 63));
    assert_eq!(bits("3.3"), Some(0x400a_6666_6666_6666));
    assert_eq!(bits("5e22"), Some(0x44a5_2d02_c7e1_4af6));
    for row in right::SPELLINGS {
        assert!(row.iter().all(|word| words::voltage(word.as_bytes()) == words::voltage(row[0].as_bytes())), "{row:?}");
    }
}

fn texts() {
    assert_eq!(text(""), "");
    assert_eq!(text("\n"), "answer=19\n");
    assert_eq!(text("atleast=1 volts=1,2"), "answer=19\n");
    assert_eq!(text("atleast=1 volts=1,2\n\natleast=1 volts=0,0\natmost=1"), "T\nanswer=19\nF\nanswer=19\n");
    let long = |length: usize| text(&("x".repeat(length) + "\natleast=1 volts=1,2\n"));
    assert!([127, 128, 129, 1_000].iter().all(|&length| long(length) == "answer=19\nT\n"));
    assert_eq!(text(&("x".repeat(128) + "atleast=1 volts=1,2\n")), "answer=19\n");
}

/// A spelled decimal is the nearest double, two are in the order of their values, what is beyond the limits is none.
fn decimal_values() {
    let mut last = Decimal { minus: false, digits: 0, shift: 0 };
    for number in 0..50_000 {
        let mut random = Random::of_case(15, number);
        let beside = Decimal { digits: last.digits.max(1) - 1, ..last };
        let decimal = if number % 3 == 0 { beside } else { decimals::any(&mut random) };
        let word = decimal.spelled(&mut random);
        let value = words::voltage(word.as_bytes()).unwrap_or_else(|| panic!("{word} is a voltage"));
        assert_eq!(value.to_bits(), decimal.nearest().to_bits(), "{word}");
        assert_eq!(value.partial_cmp(&last.nearest()), Some(decimal.order(&last)), "{decimal:?} and {last:?}");
        last = decimal;
        let beyond = decimals::beyond(&mut random);
        assert_eq!(words::voltage(beyond.as_bytes()), None, "{beyond}");
        let line = lines::any(&mut random);
        assert_ne!(desk::label(line.as_bytes()), Err(19), "{line}");
    }
}
