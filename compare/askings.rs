//! Random path questions: First with whole enumerations, Next and Check on right and wrong lists.

use crate::graphs::{self, Graph};
use crate::model::successors;
use crate::paths;
use crate::question::{Asking, Question};
use crate::random::Random;

/// A question that is not refused, with a start; with this chance one that has several shortest witnesses.
fn question(random: &mut Random, percent: usize) -> (Question, u16) {
    let several = random.chance(percent);
    let mut drawn = draw(random);
    for _ in 0..6 {
        if !several || paths::in_order(&drawn.0, drawn.1, None, 2).len() == 2 {
            break;
        }
        drawn = draw(random);
    }
    drawn
}

fn draw(random: &mut Random) -> (Question, u16) {
    let level = random.between(1, 2) as u8;
    match random.weighted(&[67, 14, 13, 3, 3]) {
        0 => any_shape(random, level),
        1 => {
            let depth = random.between(1, 4);
            let widths: Vec<usize> = (0..depth).map(|_| random.between(1, 6)).collect();
            from_front(random, graphs::layered(&widths), level)
        }
        2 => {
            let (length, doubled) = (random.between(2, 14), random.below(6));
            let graph = graphs::diamonds(random, length, doubled);
            from_front(random, graph, level)
        }
        3 => {
            let (length, doubled) = (random.between(20, 120), random.below(4));
            let graph = graphs::diamonds(random, length, doubled);
            from_front(random, graph, level)
        }
        _ => {
            let widths = [random.between(5, 8), random.between(5, 8), random.between(5, 8)];
            from_front(random, graphs::layered(&widths), level)
        }
    }
}

/// Any graph with any rows; mostly the left part holds widely and the right part seldom.
fn any_shape(random: &mut Random, level: u8) -> (Question, u16) {
    let states = if random.chance(90) { random.between(1, 12) } else { random.between(13, 40) };
    let transitions = graphs::any(random, states).transitions();
    let (lefts, rights) = random.pick(&[
        ([1, 2, 12], [12, 1, 1]),
        ([1, 6, 6], [6, 2, 1]),
        ([0, 1, 6], [10, 1, 1]),
        ([1, 1, 1], [1, 1, 1]),
        ([1, 5, 1], [4, 4, 1]),
        ([0, 1, 4], [1, 0, 0]),
    ]);
    let left = row(random, states, &lefts);
    let right = row(random, states, &rights);
    let start = random.below(states) as u16;
    (Question { states, level, transitions, left, right }, start)
}

pub fn row(random: &mut Random, states: usize, weights: &[usize]) -> Vec<u8> {
    (0..states).map(|_| random.weighted(weights) as u8).collect()
}

/// From the first state of a graph to its last one, a few states on the way spoiled, numbered anew.
fn from_front(random: &mut Random, mut graph: Graph, level: u8) -> (Question, u16) {
    let states = graph.states;
    let order = graph.renumbered(random);
    let mut left = row(random, states, random_lefts(level));
    let mut right = vec![0; states];
    right[order[states - 1]] = random.between(level as usize, 2) as u8;
    for _ in 0..random.below(3) {
        let state = random.below(states);
        left[state] = random.below(3) as u8;
        right[random.below(states)] = random.below(2) as u8;
    }
    (Question { states, level, transitions: graph.transitions(), left, right }, order[0] as u16)
}

fn random_lefts(level: u8) -> &'static [usize] {
    if level == 1 {
        &[0, 1, 1]
    } else {
        &[0, 0, 1]
    }
}

/// First with room enough, just enough, too little, none or more than there are states.
pub fn first(random: &mut Random) -> (Question, Asking) {
    let (question, start) = question(random, 55);
    let shortest = paths::in_order(&question, start, None, 1).first().map_or(1, Vec::len);
    let room = match random.weighted(&[50, 17, 12, 8, 5, 8]) {
        0 => question.states,
        1 => shortest,
        2 => shortest - 1,
        3 => 300,
        4 => 0,
        _ => random.below(question.states + 2),
    };
    (question, Asking::First { start, room })
}

pub fn next(random: &mut Random) -> (Question, Asking) {
    let (question, start) = question(random, 85);
    let path = match random.weighted(&[70, 30]) {
        0 => right_list(random, &question, start),
        _ => any_list(random, &question, start),
    };
    (question, Asking::Next(path))
}

pub fn check(random: &mut Random) -> (Question, Asking) {
    let (question, start) = question(random, 60);
    let path = match random.weighted(&[30, 70]) {
        0 => right_list(random, &question, start),
        _ => any_list(random, &question, start),
    };
    (question, Asking::Check(path))
}

/// A shortest witness: the first, the last listed or any; without one the start alone.
fn right_list(random: &mut Random, question: &Question, start: u16) -> Vec<u16> {
    let listed = paths::in_order(question, start, None, 40);
    match (listed.len(), random.below(3)) {
        (0, _) => vec![start],
        (_, 0) => listed[0].clone(),
        (count, 1) => listed[count - 1].clone(),
        (count, _) => listed[random.below(count)].clone(),
    }
}

/// A list that may be wrong in any way: joined or not, a witness or not, a shortest one or not.
fn any_list(random: &mut Random, question: &Question, start: u16) -> Vec<u16> {
    let states = question.states;
    match random.weighted(&[5, 30, 20, 10, 25, 10]) {
        0 => Vec::new(),
        1 => {
            let list = right_list(random, question, start);
            changed(random, list, states)
        }
        2 => long_witness(random, question, start),
        3 => (0..random.between(1, 2 * states.min(40))).map(|_| random.below(states) as u16).collect(),
        4 => walk(random, question, start),
        _ => {
            let mut list = right_list(random, question, start);
            let place = random.below(list.len());
            list[place] = random.pick(&[states, states + 1, 256, 65_535]) as u16;
            list
        }
    }
}

/// One entry changed, dropped, doubled, put in or appended, or the list turned round.
pub fn changed(random: &mut Random, mut list: Vec<u16>, states: usize) -> Vec<u16> {
    let (place, state) = (random.below(list.len()), random.below(states) as u16);
    match random.below(6) {
        0 => list[place] = state,
        1 => drop(list.remove(place)),
        2 => list.insert(place, list[place]),
        3 => list.insert(place, state),
        4 => list.push(state),
        _ => list.reverse(),
    }
    list
}

/// A random walk from the start, whatever the rows say.
pub fn walk(random: &mut Random, question: &Question, start: u16) -> Vec<u16> {
    let next = successors(question.states, &question.transitions);
    let mut list = vec![start];
    for _ in 0..random.below(2 * question.states.min(20) + 1) {
        let onward = &next[list[list.len() - 1] as usize];
        list.push(random.pick(onward) as u16);
    }
    list
}

/// A walk through states where the left part holds that ends where the right part does, often a detour.
fn long_witness(random: &mut Random, question: &Question, start: u16) -> Vec<u16> {
    let next = successors(question.states, &question.transitions);
    let most = if random.chance(6) { 300 } else { 4 * question.states.min(20) };
    let (mut list, mut best) = (vec![start], vec![start]);
    while list.len() < most {
        let last = list[list.len() - 1] as usize;
        if question.right[last] >= question.level {
            best = list.clone();
            if most < 300 && random.chance(40) {
                break;
            }
        }
        let held = |&&state: &&usize| question.left[state].max(question.right[state]) >= question.level;
        let onward: Vec<usize> = next[last].iter().filter(held).copied().collect();
        if question.left[last] < question.level || onward.is_empty() {
            break;
        }
        list.push(random.pick(&onward) as u16);
    }
    best
}
