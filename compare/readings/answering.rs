//! Frames about measurements: written, and answered.

use super::desk::{self, answer_line};
use super::gate::Gate;
use super::judging;

pub const MOST_BYTES: usize = 20_000;
const GATES: [&str; 3] = ["at least", "at most", "between"];

/// A gate's digit, two limits, the least and the greatest value, all four as bit patterns.
pub fn voltage_case(digit: u8, patterns: [u64; 4]) -> Vec<u8> {
    let lines: String = patterns.iter().map(|pattern| format!("{pattern:016x}\n")).collect();
    let case = format!("V\n{digit}\n{lines}").into_bytes();
    assert_eq!(case.len(), 72, "every frame about a voltage has its 72 bytes");
    case
}

/// A gate's digit, two limits, the later and the earlier counter.
pub fn delay_case(digit: u8, limits: [i32; 2], counters: [u32; 2]) -> Vec<u8> {
    let patterns = [limits[0] as u32, limits[1] as u32, counters[0], counters[1]];
    let lines: String = patterns.iter().map(|pattern| format!("{pattern:08x}\n")).collect();
    let case = format!("D\n{digit}\n{lines}").into_bytes();
    assert_eq!(case.len(), 40, "every frame about a delay has its 40 bytes");
    case
}

pub fn desk_case(text: &[u8]) -> Vec<u8> {
    let case = [b"L\n", text].concat();
    assert!(case.len() <= MOST_BYTES, "a frame for the label desk has at most {MOST_BYTES} bytes");
    case
}

/// The answer to a frame whose letter is V, D or L; nothing for others.
pub fn answer(case: &[u8]) -> Option<String> {
    let body = case.get(2..)?;
    match &case[..2] {
        b"V\n" => Some(voltage(body)),
        b"D\n" => Some(delay(body)),
        b"L\n" => Some(desk::answer(body)),
        _ => None,
    }
}

/// What a case's answer is counted as: the label or the refusal with its gate, for the label desk every line's.
pub fn names(case: &[u8], answer: &str) -> Vec<String> {
    let label = |line: &str| line.replace("answer=", "refused ");
    if case[0] == b'L' {
        return answer.lines().map(|line| format!("{}:", label(line))).collect();
    }
    let gate = GATES[usize::from(case[2] - b'0')];
    answer.lines().last().map(|line| format!("{gate} {}:", label(line))).into_iter().collect()
}

/// The digit of the gate and the four patterns.
fn fields(body: &[u8], digits: usize) -> (u8, [u64; 4]) {
    let text = std::str::from_utf8(body).expect("patterns are plain text");
    let lines: Vec<&str> = text.strip_suffix('\n').expect("the last line is ended").split('\n').collect();
    let &[digit, ref patterns @ ..] = &lines[..] else { panic!("a gate's digit comes first") };
    assert!(patterns.iter().all(|pattern| pattern.len() == digits), "every pattern has {digits} digits");
    let numbers = patterns.iter().map(|pattern| u64::from_str_radix(pattern, 16).expect("a hexadecimal number"));
    (digit.parse().expect("a digit"), numbers.collect::<Vec<_>>().try_into().expect("four patterns"))
}

fn voltage(body: &[u8]) -> String {
    let (digit, patterns) = fields(body, 16);
    let [first, second, least, greatest] = patterns.map(f64::from_bits);
    answer_line(judging::voltage(Gate::of_digit(digit, [first, second]), [least, greatest]))
}

fn delay(body: &[u8]) -> String {
    let (digit, patterns) = fields(body, 8);
    let [first, second, later, earlier] = patterns.map(|pattern| pattern as u32);
    let limits = [first, second].map(|pattern| i64::from(pattern as i32));
    let delay = judging::delay(later, earlier);
    format!("delay={delay}\n{}", answer_line(judging::ticks(Gate::of_digit(digit, limits), delay)))
}
