//! Random tables with a start, and lists with endings: pictures, long and changed ones, and any.

use super::answering::has_picture;
use super::asking::{tables, Ending};
use super::{checker, lassos};
use crate::askings::{changed, row, walk};
use crate::graphs;
use crate::model::{successors, FALSE};
use crate::question::Question;
use crate::random::Random;

/// Any graph with any rows; about half of the verdicts are false, the others true or unknown.
pub fn question(random: &mut Random) -> (Question, u16) {
    let states = if random.chance(85) { random.between(1, 10) } else { random.between(11, 40) };
    let transitions = graphs::any(random, states).transitions();
    let (lefts, rights) = random.pick(&[
        ([1, 2, 12], [12, 1, 1]),
        ([0, 1, 6], [8, 1, 1]),
        ([0, 1, 4], [1, 0, 0]),
        ([1, 1, 1], [1, 1, 1]),
        ([0, 3, 3], [1, 3, 1]),
        ([0, 1, 6], [4, 0, 1]),
        ([1, 3, 3], [5, 1, 1]),
        ([1, 6, 12], [1, 1, 3]),
    ]);
    let left = row(random, states, &lefts);
    let right = row(random, states, &rights);
    (tables(states, transitions, left, right), random.below(states) as u16)
}

/// The same, drawn again until there is a picture.
pub fn false_question(random: &mut Random) -> (Question, u16) {
    let mut drawn = question(random);
    while !has_picture(&drawn.0, drawn.1) {
        drawn = question(random);
    }
    drawn
}

/// A list with an ending that may be wrong in any way, or in none.
pub fn any_list(random: &mut Random, question: &Question, start: u16) -> (Vec<u16>, Ending) {
    let states = question.states;
    let (list, ending) = picture(random, question, start);
    match random.weighted(&[18, 10, 20, 20, 12, 8, 8, 2, 2]) {
        0 => (list, ending),
        1 => longer(random, list, ending),
        2 => (changed(random, list, states), ending),
        3 => {
            let other = any_ending(random, list.len());
            (list, other)
        }
        4 => stroll(random, question, start),
        5 => {
            let list = walk(random, question, start);
            let ending = fitting(random, question, &list);
            (list, ending)
        }
        6 => (with_foreign_entry(random, list, states), ending),
        7 => {
            let list: Vec<u16> = (0..random.between(1, 2 * states)).map(|_| random.below(states) as u16).collect();
            let ending = fitting(random, question, &list);
            (list, ending)
        }
        _ => (Vec::new(), any_ending(random, 0)),
    }
}

/// A picture from the start, without one from any state, its ways tried in any order; without any the start alone.
pub fn picture(random: &mut Random, question: &Question, start: u16) -> (Vec<u16>, Ending) {
    let mut next = successors(question.states, &question.transitions);
    next.iter_mut().for_each(|list| random.shuffle(list));
    let mut starts = [start].into_iter().chain(0..question.states as u16);
    let found = starts.find_map(|start| lassos::from(question, &next, start));
    found.unwrap_or((vec![start], Ending::Falls))
}

/// The loop walked again and again, and any of the places that are the same state; one that falls stays as it is.
fn longer(random: &mut Random, mut list: Vec<u16>, ending: Ending) -> (Vec<u16>, Ending) {
    let Ending::Back(place) = ending else {
        return (list, ending);
    };
    let turn = list[place..].to_vec();
    let again = random.between(1, 3);
    (0..again).for_each(|_| list.extend(&turn));
    (list, Ending::Back(place + turn.len() * random.below(again + 1)))
}

/// A walk through states whose right value is false, as far as it goes, with repeated ones.
fn stroll(random: &mut Random, question: &Question, start: u16) -> (Vec<u16>, Ending) {
    let next = successors(question.states, &question.transitions);
    let mut list = vec![start];
    for _ in 0..random.below(3 * question.states.min(20)) {
        let onward = next[list[list.len() - 1] as usize].iter().copied();
        let onward: Vec<usize> = onward.filter(|&state| question.right[state] == FALSE).collect();
        if onward.is_empty() {
            break;
        }
        list.push(random.pick(&onward) as u16);
    }
    let ending = fitting(random, question, &list);
    (list, ending)
}

/// An ending that the last state allows; where it allows none, any.
fn fitting(random: &mut Random, question: &Question, list: &[u16]) -> Ending {
    let all = (0..list.len()).map(Ending::Back).chain([Ending::Falls]);
    let allowed: Vec<Ending> = all.filter(|&ending| checker::ends(question, list, ending)).collect();
    match allowed.is_empty() {
        true => any_ending(random, list.len()),
        false => random.pick(&allowed),
    }
}

/// Falling, a place in the list, or one behind it.
fn any_ending(random: &mut Random, entries: usize) -> Ending {
    match random.weighted(&[30, 50, 20]) {
        0 => Ending::Falls,
        1 if entries > 0 => Ending::Back(random.below(entries)),
        _ => Ending::Back(random.pick(&[entries, entries + 1, 256, 65_535])),
    }
}

pub fn with_foreign_entry(random: &mut Random, mut list: Vec<u16>, states: usize) -> Vec<u16> {
    let place = random.below(list.len());
    list[place] = random.pick(&[states, states + 1, 256, 65_535]) as u16;
    list
}
