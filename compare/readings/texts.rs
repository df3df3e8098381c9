//! The label desk's stored cases: words and lines right and wrong, equal values, long lines, texts as a whole.

use super::answering::{desk_case, MOST_BYTES};
use super::{right, wrong};

const GOOD: &str = "atleast=1 volts=1,2\n";

pub fn cases() -> Vec<Vec<u8>> {
    [words(), wrong_lines(), equal_values(), neighbours(), long_lines(), whole_texts()].concat()
}

/// A word at each of its places, each time as a line of one case, and a good line behind them.
fn words() -> Vec<Vec<u8>> {
    let volts = |word: &&str| {
        let gates = format!("atleast={word} volts=1,2\natmost={word} volts=1,2\nbetween={word},9 volts=1,2\n");
        let rest = format!("between=-9,{word} volts=1,2\natleast=1 volts={word},inf\natmost=1 volts=-inf,{word}\n");
        desk_case(format!("{gates}{rest}atleast={word} volts={word},{word}\n{GOOD}").as_bytes())
    };
    let limits = |word: &&str| {
        let gates = format!("atleast={word} ticks=3,5\natmost={word} ticks=3,5\nbetween={word},9 ticks=3,5\n");
        desk_case(format!("{gates}between=-9,{word} ticks=3,5\nbetween={word},{word} ticks=3,5\n{GOOD}").as_bytes())
    };
    let ticks = |word: &&str| {
        let lines = format!("atleast=0 ticks={word},7\natmost=0 ticks=7,{word}\nbetween=0,0 ticks={word},{word}\n");
        desk_case(format!("{lines}{GOOD}").as_bytes())
    };
    let mut found: Vec<Vec<u8>> = right::VOLTAGES.iter().chain(wrong::VOLTAGES).map(volts).collect();
    found.extend(right::LIMITS.iter().chain(wrong::LIMITS).map(limits));
    found.extend(right::COUNTERS.iter().chain(wrong::COUNTERS).map(ticks));
    found
}

/// Each before a good line, and as a last line without its line feed.
fn wrong_lines() -> Vec<Vec<u8>> {
    let of_line = |line: &&[u8]| [[line, &b"\n"[..], GOOD.as_bytes()].concat(), [GOOD.as_bytes(), line].concat()];
    wrong::LINES.iter().flat_map(of_line).map(|text| desk_case(&text)).collect()
}

/// One value in two spellings: a gate of the one holds the other and nothing beside it.
fn equal_values() -> Vec<Vec<u8>> {
    let of_pair = |one: &str, other: &str| {
        let lines = format!("atleast={one} volts={other},inf\natmost={one} volts=-inf,{other}\n");
        format!("{lines}between={one},{other} volts={other},{one}\nbetween={other},{one} volts={one},{one}\n")
    };
    let of_row = |row: &&[&str]| row.iter().map(|one| of_pair(row[0], one)).collect::<String>();
    right::SPELLINGS.iter().map(|row| desk_case(of_row(row).as_bytes())).collect()
}

/// Fifteen digits that differ by one in the last place, at every power of ten.
fn neighbours() -> Vec<Vec<u8>> {
    let of_digits = |low: u64| {
        let lines = (-22..=22).map(|power| {
            let (low, high) = (format!("{low}e{power}"), format!("{}e{power}", low + 1));
            let between = format!("between={high},{low} volts={low},{high}\n");
            format!("atmost={low} volts={low},{high}\n{between}atleast={high} volts={low},{low}\n")
        });
        desk_case(lines.collect::<String>().as_bytes())
    };
    [100_000_000_000_000, 450_359_962_737_049, 899_999_999_999_999, 999_999_999_999_998].map(of_digits).to_vec()
}

/// Lines around the greatest length and beyond, too long before, within or behind a good line.
fn long_lines() -> Vec<Vec<u8>> {
    let mut found = Vec::new();
    for length in [100, 101, 102, 126, 127, 128, 129, 130, 148, 149, 255, 256, 257, 275, 276, 1_000] {
        let more = |sign: &str| sign.repeat(length - GOOD.len() + 1);
        let lines = [
            GOOD.replacen('\n', &(more(" ") + "\n"), 1),
            GOOD.replacen('1', &("1".to_string() + &more("0")), 1),
            GOOD.replacen("2\n", &format!("2.{}\n", more("0")), 1),
            more("x") + GOOD,
            more("\0") + GOOD,
        ];
        found.extend(lines.map(|line| desk_case((line + GOOD).as_bytes())));
        found.push(desk_case(&b"x".repeat(length)));
    }
    let longest =
        "between=-12345678901234.5e-21,-12345678901234.5e-21 volts=-12345678901234.5e-21,-12345678901234.5e-21\n";
    found.push(desk_case(longest.as_bytes()));
    found.push(desk_case("between=-2147483648,-2147483648 ticks=2147483648,4294967295\n".as_bytes()));
    found
}

fn whole_texts() -> Vec<Vec<u8>> {
    let refused = "between=2,1 volts=1,2\natleast=nan volts=2,1\natmost=nan volts=nan,1\nbetween=1,nan volts=1,1\n";
    let delays =
        "between=-2,-2 ticks=3,5\nbetween=3,3 ticks=2,4294967295\nbetween=0,-1 ticks=3,5\natleast=-0 ticks=7,7\n";
    let unknown = "atleast=1 volts=2,1\natmost=9 volts=nan,1\nbetween=0,2 volts=1,nan\natleast=1 volts=0,1\n";
    let texts = ["", "\n", "\n\n\n", "\r\n", "x", "\0", ".\n", ".", refused, delays, unknown];
    let mut found = texts.map(|text| desk_case(text.as_bytes())).to_vec();
    for text in [refused, delays, unknown] {
        found.push(desk_case(text.trim_end().as_bytes()));
        found.push(desk_case(text.replace('\n', "\r\n").as_bytes()));
        found.push(desk_case(text.replace('\n', "\n\n").as_bytes()));
        found.push(desk_case(text.replace('\n', "").as_bytes()));
    }
    found.push(desk_case(&GOOD.repeat(MOST_BYTES / GOOD.len()).as_bytes()[..MOST_BYTES - 2]));
    found.push(desk_case(&b"\n".repeat(1_000)));
    found.push(desk_case(&[&b"x".repeat(MOST_BYTES - 2 - GOOD.len())[..], GOOD.as_bytes()].concat()));
    found
}
