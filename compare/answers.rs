//! The expected answer of a case, without the line that ends it.

use crate::model::{joined, letters, successors};
use crate::question::{Asking, Question};
use crate::{formula, judge, labelling, paths, pictures, question, reader, readings, refusals};

pub const MOST_PATHS: usize = 200;

pub fn answer(case: &[u8]) -> String {
    if let Some(text) = case.strip_prefix(b"M\n") {
        return of_model(text);
    }
    let of_others = formula::answering::answer(case).or_else(|| readings::answering::answer(case));
    of_others.or_else(|| pictures::answering::answer(case)).unwrap_or_else(|| {
        let (question, asking) = question::read(case);
        of_question(&question, &asking)
    })
}

fn of_model(text: &[u8]) -> String {
    match reader::read(text).and_then(|model| judge::judge_whole(&model)) {
        Err(refusal) => refused(refusal),
        Ok(judged) => {
            let rows: String = judged.rows.iter().map(|row| format!("row={}\n", letters(row))).collect();
            format!("answer=0\n{rows}model={}\n", letters(&[judged.verdict]))
        }
    }
}

fn refused(refusal: u16) -> String {
    format!("answer={refusal}\n")
}

pub fn of_question(question: &Question, asking: &Asking) -> String {
    let start = match asking {
        Asking::First { start, .. } => Some(*start),
        _ => None,
    };
    if let Some(refusal) = refusals::of_question(question, start) {
        return refused(refusal);
    }
    match asking {
        Asking::First { start, room } => of_first(question, *start, *room),
        Asking::Next(path) => of_next(question, path),
        Asking::Check(path) => String::from(if paths::check(question, path) { "yes\n" } else { "no\n" }),
    }
}

fn of_first(question: &Question, start: u16, room: usize) -> String {
    let listed = paths::in_order(question, start, None, MOST_PATHS + 1);
    if let Some(all) = paths::by_lengths(question, start) {
        let front = &all[..all.len().min(MOST_PATHS + 1)];
        assert_eq!(front, listed, "the two listings differ on {question:?} from {start}");
    }
    assert_eq!(reaches_level(question, start), !listed.is_empty(), "a path exactly when the verdict reaches the level");
    match listed.first() {
        None => return String::from("none\n"),
        Some(shortest) if shortest.len() > room => return refused(16),
        Some(_) => {}
    }
    let shown: String = listed.iter().take(MOST_PATHS).map(|path| line(path)).collect();
    shown + if listed.len() > MOST_PATHS { "more\n" } else { "end\n" }
}

fn of_next(question: &Question, path: &[u16]) -> String {
    if !paths::is_shortest(question, path) {
        return refused(17);
    }
    let next = paths::in_order(question, path[0], Some(path), 1);
    if let Some(all) = paths::by_lengths(question, path[0]) {
        let place = all.iter().position(|one| one == path).expect("a shortest witness is listed");
        assert_eq!(all.get(place + 1), next.first(), "the two listings differ after {path:?} on {question:?}");
    }
    next.first().map_or(String::from("end\n"), |path| line(path))
}

fn line(path: &[u16]) -> String {
    format!("path={}\n", joined(path))
}

/// Whether the verdict of E(left U right) at the start is at least the level.
fn reaches_level(question: &Question, start: u16) -> bool {
    let next = successors(question.states, &question.transitions);
    let marks = |row: &[u8]| row.iter().map(|&value| value >= question.level).collect::<Vec<_>>();
    labelling::until(&marks(&question.left), &marks(&question.right), &next, false)[start as usize]
}
