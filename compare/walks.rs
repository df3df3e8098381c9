//! Judging literally as the rules word it: every walk of exactly S states is listed and its value taken.

use crate::model::{successors, Model};

const MOST_WALKS: usize = 20_000;
const MOST_STEPS: usize = 3_000_000;

/// The rows of all nodes, or nothing where the walks are too many to list.
pub fn rows(model: &Model) -> Option<Vec<Vec<u8>>> {
    let next = successors(model.states, &model.transitions);
    let walks = listed(&next)?;
    let mut rows: Vec<Vec<u8>> = Vec::new();
    for node in model.nodes.chunks(3) {
        let row = (0..model.states).map(|state| verdict(model, node, state, &rows, &next, &walks[state]));
        let row = row.collect();
        rows.push(row);
    }
    Some(rows)
}

/// The walks from each state, or nothing where they are too many.
pub fn listed(next: &[Vec<usize>]) -> Option<Vec<Vec<Vec<usize>>>> {
    let (states, count) = (next.len(), walk_count(next));
    if count > MOST_WALKS || count * states * states > MOST_STEPS {
        return None;
    }
    Some((0..states).map(|state| walks_from(state, next)).collect())
}

fn verdict(
    model: &Model,
    node: &[u16],
    state: usize,
    rows: &[Vec<u8>],
    next: &[Vec<usize>],
    walks: &[Vec<usize>],
) -> u8 {
    let (left, right) = (node[1] as usize, node[2] as usize);
    let values = || walks.iter().map(|walk| until_value(walk, &rows[left], &rows[right]));
    let greatest = || walks.iter().map(|walk| greatest_value(walk, &rows[left]));
    let least = || walks.iter().map(|walk| least_value(walk, &rows[left]));
    match node[0] {
        0 => 2,
        1 => model.labels[state * model.atoms + left],
        2 => 2 - rows[left][state],
        3 => rows[left][state].min(rows[right][state]),
        4 => next[state].iter().map(|&after| rows[left][after]).max().unwrap(),
        5 => values().max().unwrap(),
        6 => values().min().unwrap(),
        7 => rows[left][state].max(rows[right][state]),
        8 => (2 - rows[left][state]).max(rows[right][state]),
        9 => next[state].iter().map(|&after| rows[left][after]).min().unwrap(),
        10 => greatest().max().unwrap(),
        11 => greatest().min().unwrap(),
        12 => least().max().unwrap(),
        13 => least().min().unwrap(),
        kind => panic!("kind {kind} is refused before judging"),
    }
}

/// The greatest, over the places, of the smallest of the right value there and the left values before.
pub fn until_value(walk: &[usize], left: &[u8], right: &[u8]) -> u8 {
    let at = |place: usize| {
        let before = walk[..place].iter().map(|&state| left[state]);
        before.chain([right[walk[place]]]).min().unwrap()
    };
    (0..walk.len()).map(at).max().unwrap()
}

pub fn greatest_value(walk: &[usize], row: &[u8]) -> u8 {
    walk.iter().map(|&state| row[state]).max().unwrap()
}

pub fn least_value(walk: &[usize], row: &[u8]) -> u8 {
    walk.iter().map(|&state| row[state]).min().unwrap()
}

/// How many walks there are from all states together, without listing them.
fn walk_count(next: &[Vec<usize>]) -> usize {
    let mut counts = vec![1usize; next.len()];
    for _ in 1..next.len() {
        let longer = next.iter().map(|list| list.iter().fold(0usize, |sum, &t| sum.saturating_add(counts[t])));
        counts = longer.collect();
    }
    counts.iter().fold(0, |sum, &count| sum.saturating_add(count))
}

fn walks_from(state: usize, next: &[Vec<usize>]) -> Vec<Vec<usize>> {
    let mut found = Vec::new();
    extend(&mut vec![state], next, &mut found);
    found
}

fn extend(walk: &mut Vec<usize>, next: &[Vec<usize>], found: &mut Vec<Vec<usize>>) {
    if walk.len() == next.len() {
        found.push(walk.clone());
        return;
    }
    for &state in &next[walk[walk.len() - 1]] {
        walk.push(state);
        extend(walk, next, found);
        walk.pop();
    }
}
