//! A path question and how it is asked, written to and read from the lines of a case.

use crate::model::joined;

#[derive(Clone, Debug)]
pub struct Question {
    pub states: usize,
    pub level: u8,
    pub transitions: Vec<u16>,
    pub left: Vec<u8>,
    pub right: Vec<u8>,
}

#[derive(Clone, Debug)]
pub enum Asking {
    First { start: u16, room: usize },
    Next(Vec<u16>),
    Check(Vec<u16>),
}

/// The whole text of a case, its kind line too.
pub fn write(question: &Question, asking: &Asking) -> Vec<u8> {
    let (states, level) = (question.states, question.level);
    let (kind, head, path) = match asking {
        Asking::First { start, room } => ("F", format!("{states},{level},{start},{room}"), None),
        Asking::Next(path) => ("N", format!("{states},{level}"), Some(path)),
        Asking::Check(path) => ("C", format!("{states},{level}"), Some(path)),
    };
    let mut lines = vec![kind.to_string(), head, joined(&question.transitions)];
    lines.push(joined(&question.left));
    lines.push(joined(&question.right));
    lines.extend(path.map(|path| joined(path)));
    crate::model::text_of(&lines)
}

pub fn read(text: &[u8]) -> (Question, Asking) {
    let text = std::str::from_utf8(text).expect("a path question is plain text");
    let lines: Vec<&str> = text.split('\n').collect();
    let head = numbers(lines[1]);
    let question = Question {
        states: head[0],
        level: head[1] as u8,
        transitions: narrow(lines[2]),
        left: numbers(lines[3]).iter().map(|&value| value as u8).collect(),
        right: numbers(lines[4]).iter().map(|&value| value as u8).collect(),
    };
    let asking = match lines[0] {
        "F" => Asking::First { start: head[2] as u16, room: head[3] },
        "N" => Asking::Next(narrow(lines[5])),
        "C" => Asking::Check(narrow(lines[5])),
        other => panic!("no kind of case: {other}"),
    };
    (question, asking)
}

pub fn numbers(line: &str) -> Vec<usize> {
    let fields = line.split(',').filter(|field| !field.is_empty());
    fields.map(|field| field.parse().expect("a number in a list of numbers")).collect()
}

pub fn narrow(line: &str) -> Vec<u16> {
    numbers(line).iter().map(|&number| number as u16).collect()
}
