//! Witnesses of a path question: checked, listed by plain enumeration, and listed in order with pruning.

use crate::model::successors;
use crate::question::Question;

const MOST_LISTS: usize = 4_000;

/// Whether the list is a witness, shortest or not; only for questions that are not refused.
pub fn check(question: &Question, list: &[u16]) -> bool {
    let Some((last, earlier)) = list.split_last() else {
        return false;
    };
    if list.iter().any(|&state| state as usize >= question.states) {
        return false;
    }
    let joined = |pair: &[u16]| question.transitions.chunks(2).any(|transition| transition == pair);
    list.windows(2).all(joined)
        && question.right[*last as usize] >= question.level
        && earlier.iter().all(|&state| question.left[state as usize] >= question.level)
}

/// Whether the list is a witness with no shorter one from its first entry.
pub fn is_shortest(question: &Question, list: &[u16]) -> bool {
    check(question, list) && distance(question, &next_of(question), list[0] as usize) == Some(list.len())
}

fn next_of(question: &Question) -> Vec<Vec<usize>> {
    successors(question.states, &question.transitions)
}

/// The entries of a shortest witness from a state, by plain breadth-first search.
fn distance(question: &Question, next: &[Vec<usize>], from: usize) -> Option<usize> {
    let mut seen = vec![false; question.states];
    let mut layer = vec![from];
    seen[from] = true;
    for entries in 1.. {
        if layer.iter().any(|&state| question.right[state] >= question.level) {
            return Some(entries);
        }
        let mut after = Vec::new();
        for &state in layer.iter().filter(|&&state| question.left[state] >= question.level) {
            for &onward in next[state].iter().filter(|&&onward| !std::mem::replace(&mut seen[onward], true)) {
                after.push(onward);
            }
        }
        if after.is_empty() {
            return None;
        }
        layer = after;
    }
    unreachable!("the layers end")
}

/// Every shortest witness from the start by keeping all lists of each length; nothing if they are too many.
pub fn by_lengths(question: &Question, start: u16) -> Option<Vec<Vec<u16>>> {
    let next = next_of(question);
    let mut lists = vec![vec![start]];
    for _ in 0..question.states {
        let last = |list: &Vec<u16>| list[list.len() - 1] as usize;
        let mut witnesses: Vec<_> =
            lists.iter().filter(|list| question.right[last(list)] >= question.level).cloned().collect();
        if !witnesses.is_empty() {
            witnesses.sort();
            return Some(witnesses);
        }
        let open = lists.iter().filter(|list| question.left[last(list)] >= question.level);
        lists =
            open.flat_map(|list| next[last(list)].iter().map(|&state| [&list[..], &[state as u16]].concat())).collect();
        if lists.len() > MOST_LISTS {
            return None;
        }
    }
    Some(Vec::new())
}

/// The shortest witnesses from the start in ascending order, those after a given one, at most so many.
pub fn in_order(question: &Question, start: u16, after: Option<&[u16]>, most: usize) -> Vec<Vec<u16>> {
    let next = next_of(question);
    let distances = (0..question.states).map(|state| distance(question, &next, state)).collect();
    let mut search = Search { next, distances, after, most, found: Vec::new() };
    search.descend(&mut vec![start]);
    search.found
}

struct Search<'a> {
    next: Vec<Vec<usize>>,
    distances: Vec<Option<usize>>,
    after: Option<&'a [u16]>,
    most: usize,
    found: Vec<Vec<u16>>,
}

impl Search<'_> {
    /// Depth first, smaller successors first; a beginning below the given list's cannot lead above it.
    fn descend(&mut self, list: &mut Vec<u16>) {
        let below = |after: &[u16]| list[..] < after[..list.len()];
        let Some(entries) = self.distances[list[list.len() - 1] as usize] else {
            return;
        };
        if self.found.len() == self.most || self.after.is_some_and(below) {
            return;
        }
        if entries == 1 {
            if self.after.map_or(true, |after| list[..] > *after) {
                self.found.push(list.clone());
            }
            return;
        }
        for state in self.next[list[list.len() - 1] as usize].clone() {
            if self.distances[state] == Some(entries - 1) {
                list.push(state as u16);
                self.descend(list);
                list.pop();
            }
        }
    }
}
