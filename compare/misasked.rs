//! Path questions that are refused: 1, 6 to 9, 14 and 15, each by its own cause or several at once.

use crate::askings;
use crate::question::{Asking, Question};
use crate::random::Random;
use crate::spoiled;

pub const CAUSES: [u16; 7] = [1, 6, 7, 8, 9, 14, 15];

/// First, Next or Check (0, 1, 2) with one cause, which decides alone.
pub fn alone(random: &mut Random, cause: u16, call: usize) -> (Question, Asking) {
    let (mut question, mut asking) = ask(random, call);
    spoil(random, &mut question, &mut asking, cause);
    (question, asking)
}

/// Any call with two to four causes; the lowest decides.
pub fn several(random: &mut Random) -> (Question, Asking) {
    let call = random.below(3);
    let (mut question, mut asking) = ask(random, call);
    for _ in 0..random.between(2, 4) {
        let cause = random.pick(&CAUSES);
        spoil(random, &mut question, &mut asking, cause);
    }
    (question, asking)
}

fn ask(random: &mut Random, call: usize) -> (Question, Asking) {
    match call {
        0 => askings::first(random),
        1 => askings::next(random),
        _ => askings::check(random),
    }
}

fn spoil(random: &mut Random, question: &mut Question, asking: &mut Asking, cause: u16) {
    match cause {
        15 => spoil_level_or_start(random, question, asking),
        // Without a pair there is no order to spoil.
        8 if question.transitions.len() < 2 => spoil_level_or_start(random, question, asking),
        _ => spoil_tables(random, question, cause),
    }
}

/// Brings in one of 1, 6 to 9 and 14; 8 needs a pair.
pub fn spoil_tables(random: &mut Random, question: &mut Question, cause: u16) {
    match cause {
        1 => question.states = random.pick(&[0, 257, 258, 65_535]),
        6 => spoil_length(random, &mut question.transitions),
        7 => spoiled::foreign_end(random, &mut question.transitions, question.states.clamp(1, 256)),
        8 if question.transitions.len() >= 2 => {
            // An odd last number would be taken along as half a pair.
            let odd = if question.transitions.len() % 2 == 1 { question.transitions.pop() } else { None };
            spoiled::disorder(random, &mut question.transitions);
            question.transitions.extend(odd);
        }
        9 => dead_end(random, question),
        14 => spoil_row(random, question),
        _ => {}
    }
}

fn spoil_length(random: &mut Random, transitions: &mut Vec<u16>) {
    match random.below(4) {
        0 => transitions.clear(),
        1 => drop(transitions.pop()),
        2 => transitions.truncate(1),
        _ => transitions.push(0),
    }
}

/// A new last state without a successor, its rows complete.
fn dead_end(random: &mut Random, question: &mut Question) {
    let last = question.states.wrapping_sub(1) as u16;
    let others = question.transitions.chunks(2).any(|pair| pair[0] != last);
    if others && random.chance(50) {
        let kept = question.transitions.chunks(2).filter(|pair| pair[0] != last);
        question.transitions = kept.flatten().copied().collect();
    } else if question.states < 256 {
        question.states += 1;
        question.left.push(random.below(3) as u8);
        question.right.push(random.below(3) as u8);
    }
}

fn spoil_row(random: &mut Random, question: &mut Question) {
    let row = if random.chance(50) { &mut question.left } else { &mut question.right };
    let place = random.below(row.len().max(1));
    match random.below(5) {
        0 => row.clear(),
        1 => drop(row.pop()),
        2 => row.push(random.below(3) as u8),
        3 => row.resize(random.pick(&[257, 297]), 1),
        _ if row.is_empty() => row.push(3),
        _ => row[place] = random.pick(&[3, 4, 128, 255]),
    }
}

fn spoil_level_or_start(random: &mut Random, question: &mut Question, asking: &mut Asking) {
    let states = question.states.min(65_535);
    match asking {
        Asking::First { start, .. } if random.chance(50) => {
            *start = random.pick(&[states, states + 1, 65_535]).min(65_535) as u16
        }
        _ => question.level = random.pick(&[0, 3, 4, 255]),
    }
}
