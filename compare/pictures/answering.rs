//! Questions about pictures, answered.

use super::asking::{self, Asking};
use super::{checker, lassos};
use crate::labelling;
use crate::model::{successors, FALSE};
use crate::question::Question;
use crate::refusals;

const NO_ROOM: u16 = 16;

/// What an S case expects where a picture is due: which one is shown is free.
pub const ANY_PICTURE: &str = "picture\n";

/// The answer to a frame whose letter is W, S or X; nothing for others.
pub fn answer(case: &[u8]) -> Option<String> {
    let (question, asking) = asking::read(case)?;
    let answered = match &asking {
        Asking::Word { start, room } => handed_out(&question, *start, *room, "picture\nyes\n"),
        Asking::Shown { start, room } => handed_out(&question, *start, *room, ANY_PICTURE),
        Asking::Check { list, ending } => match refusals::of_question(&question, None) {
            Some(refusal) => Err(refusal),
            None => Ok(if checker::is_picture(&question, list, *ending) { "yes\n" } else { "no\n" }),
        },
    };
    Some(answered.map_or_else(|refusal| format!("answer={refusal}\n"), String::from))
}

/// The space must have an entry for each state, however short the picture is.
fn handed_out(question: &Question, start: u16, room: usize, picture: &'static str) -> Result<&'static str, u16> {
    if let Some(refusal) = refusals::of_question(question, Some(start)) {
        return Err(refusal);
    }
    match has_picture(question, start) {
        false => Ok("none\n"),
        true if room < question.states => Err(NO_ROOM),
        true => Ok(picture),
    }
}

/// By the search; the lists of a small graph and the labelling must say the same.
pub fn has_picture(question: &Question, start: u16) -> bool {
    let found = lassos::from(question, &successors(question.states, &question.transitions), start);
    if let Some((list, ending)) = &found {
        assert!(checker::is_picture(question, list, *ending), "{list:?} with {ending:?} on {question:?}");
        assert!(list[0] == start && list.len() <= question.states, "{list:?} from {start} on {question:?}");
    }
    if let Some(listed) = lassos::among_all_lists(question, start) {
        assert_eq!(listed, found.is_some(), "the lists and the search differ on {question:?} from {start}");
    }
    let verdict = verdict(question, start);
    assert_eq!(found.is_some(), verdict == FALSE, "a picture exactly when the verdict is false: {question:?}, {start}");
    found.is_some()
}

/// The verdict of A(left U right) at the start.
pub fn verdict(question: &Question, start: u16) -> u8 {
    let next = successors(question.states, &question.transitions);
    let marks = |row: &[u8], least: u8| row.iter().map(|&value| value >= least).collect::<Vec<_>>();
    let reached = |least: u8| {
        labelling::until(&marks(&question.left, least), &marks(&question.right, least), &next, true)[start as usize]
    };
    reached(1) as u8 + reached(2) as u8
}
