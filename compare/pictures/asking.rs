//! A question about a picture, written to and read from the lines of a case; its tables are a path question's.

use crate::model::{joined, text_of};
use crate::question::{narrow, numbers, Question};

/// No level is asked for, so it must never be a cause.
const ANY_LEVEL: u8 = 2;

/// The left part false at the last state, or a transition from there to the state at a place in the list.
#[derive(Clone, Copy, Debug, PartialEq)]
pub enum Ending {
    Falls,
    Back(usize),
}

/// For a picture, of which the word of the check is told; for a picture, which is shown; or whether a list is one.
#[derive(Clone, Debug)]
pub enum Asking {
    Word { start: u16, room: usize },
    Shown { start: u16, room: usize },
    Check { list: Vec<u16>, ending: Ending },
}

pub fn tables(states: usize, transitions: Vec<u16>, left: Vec<u8>, right: Vec<u8>) -> Question {
    Question { states, level: ANY_LEVEL, transitions, left, right }
}

/// The whole text of a case, its kind line too.
pub fn write(question: &Question, asking: &Asking) -> Vec<u8> {
    let states = question.states;
    let (kind, head, list) = match asking {
        Asking::Word { start, room } => ("W", format!("{states},{start},{room}"), None),
        Asking::Shown { start, room } => ("S", format!("{states},{start},{room}"), None),
        Asking::Check { list, ending: Ending::Falls } => ("X", states.to_string(), Some(list)),
        Asking::Check { list, ending: Ending::Back(place) } => ("X", format!("{states},{place}"), Some(list)),
    };
    let mut lines = vec![kind.to_string(), head, joined(&question.transitions)];
    lines.push(joined(&question.left));
    lines.push(joined(&question.right));
    lines.extend(list.map(|list| joined(list)));
    text_of(&lines)
}

/// What a case asks whose letter is W, S or X; nothing for others.
pub fn read(case: &[u8]) -> Option<(Question, Asking)> {
    if ![b"W\n", b"S\n", b"X\n"].iter().any(|letter| case.starts_with(*letter)) {
        return None;
    }
    let text = std::str::from_utf8(case).expect("a question about a picture is plain text");
    let lines: Vec<&str> = text.split('\n').collect();
    let row = |line: &str| numbers(line).iter().map(|&value| value as u8).collect();
    let head = numbers(lines[1]);
    let ending = || head.get(1).map_or(Ending::Falls, |&place| Ending::Back(place));
    let asking = match lines[0] {
        "W" => Asking::Word { start: head[1] as u16, room: head[2] },
        "S" => Asking::Shown { start: head[1] as u16, room: head[2] },
        _ => Asking::Check { list: narrow(lines[5]), ending: ending() },
    };
    Some((tables(head[0], narrow(lines[2]), row(lines[3]), row(lines[4])), asking))
}
