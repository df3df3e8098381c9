//! Frames about formulas: written, and answered.

use super::{reading, rebuilding, walking};
use crate::judge;
use crate::model::{joined, letters};
use crate::question::{narrow, numbers};
use crate::reader;

const LEAST_NODE_ROOM: usize = 192;
const LEAST_TEXT_ROOM: usize = 4_096;
const NO_ROOM: u16 = 24;

pub fn reading_case(room: usize, text: &[u8]) -> Vec<u8> {
    [format!("R\n{room}\n").as_bytes(), text].concat()
}

pub fn printing_case(room: usize, nodes: &[u16]) -> Vec<u8> {
    format!("P\n{room}\n{}\n", joined(nodes)).into_bytes()
}

pub fn part_case(room: usize, node: usize, nodes: &[u16]) -> Vec<u8> {
    format!("K\n{room},{node}\n{}\n", joined(nodes)).into_bytes()
}

pub fn judging_case(formula: &[u8], model: &[u8]) -> Vec<u8> {
    assert!(!formula.contains(&b'\n'), "the model begins behind the first line feed");
    [b"Q\n", formula, b"\n", model].concat()
}

/// The answer to a frame whose letter is R, P, K or Q; nothing for others.
pub fn answer(case: &[u8]) -> Option<String> {
    let mut lines = case.splitn(3, |&byte| byte == b'\n');
    let (letter, head, body) = (lines.next()?, lines.next()?, lines.next()?);
    let plain = |bytes| std::str::from_utf8(bytes).expect("numbers are plain text");
    let list = || narrow(plain(body).trim_end_matches('\n'));
    let answered = match letter {
        b"R" => read(numbers(plain(head))[0], body),
        b"P" => print(numbers(plain(head))[0], &list(), None),
        b"K" => print(numbers(plain(head))[0], &list(), Some(numbers(plain(head))[1])),
        b"Q" => judge(head, body),
        _ => return None,
    };
    Some(answered.map_or_else(|refusal| format!("answer={refusal}\n"), |lines| format!("answer=0\n{lines}")))
}

fn read(room: usize, text: &[u8]) -> Result<String, u16> {
    if room < LEAST_NODE_ROOM {
        return Err(NO_ROOM);
    }
    let formula = reading::read(text)?;
    assert_eq!(formula.text().as_bytes(), text, "printing gives back the text");
    Ok(format!("nodes={}\n", joined(&formula.nodes())))
}

/// The whole list, or the part that a node of it is the whole of.
fn print(room: usize, nodes: &[u16], part: Option<usize>) -> Result<String, u16> {
    if room < LEAST_TEXT_ROOM {
        return Err(NO_ROOM);
    }
    let formula = match part {
        None => rebuilding::of_whole(nodes),
        Some(node) => rebuilding::of_part(nodes, node),
    };
    Ok(format!("text={}\n", formula.ok_or(reading::NO_FORMULA)?.text()))
}

/// The model is read before the formula, whose node list then takes the place of the model's own.
fn judge(formula: &[u8], model: &[u8]) -> Result<String, u16> {
    let mut model = reader::read(model)?;
    let formula = reading::read(formula)?;
    model.nodes = formula.nodes();
    let judged = judge::judge_whole(&model)?;
    let row = judged.rows.last().unwrap();
    if let Some(walked) = walking::row(&model, &formula) {
        assert_eq!(&walked, row, "the tree and its node list are judged differently: {} on {model:?}", formula.text());
    }
    Ok(format!("row={}\nmodel={}\n", letters(row), letters(&[judged.verdict])))
}
