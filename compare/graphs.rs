//! Random graphs of several shapes; every state has a successor and the pairs are in ascending order.

use crate::random::Random;
use std::collections::BTreeSet;

pub const MOST_TRANSITIONS: usize = 1024;

pub struct Graph {
    pub states: usize,
    pub pairs: BTreeSet<(u16, u16)>,
}

impl Graph {
    fn empty(states: usize) -> Graph {
        Graph { states, pairs: BTreeSet::new() }
    }

    pub fn join(&mut self, from: usize, to: usize) {
        if self.pairs.len() < MOST_TRANSITIONS {
            self.pairs.insert((from as u16, to as u16));
        }
    }

    pub fn transitions(&self) -> Vec<u16> {
        self.pairs.iter().flat_map(|&(from, to)| [from, to]).collect()
    }

    /// The same graph with its states numbered otherwise; the order is given back.
    pub fn renumbered(&mut self, random: &mut Random) -> Vec<usize> {
        let mut order: Vec<usize> = (0..self.states).collect();
        random.shuffle(&mut order);
        let moved = |state: u16| order[state as usize] as u16;
        self.pairs = self.pairs.iter().map(|&(from, to)| (moved(from), moved(to))).collect();
        order
    }
}

/// One of the shapes below with this many states.
pub fn any(random: &mut Random, states: usize) -> Graph {
    let mut graph = match random.weighted(&[40, 15, 15, 15, 15]) {
        0 => sparse(random, states, 3),
        1 => sparse(random, states, 1),
        2 => ring(random, states),
        3 => chain(random, states),
        _ => dense(random, states),
    };
    if random.chance(50) {
        graph.renumbered(random);
    }
    graph
}

/// Each state has 1 to `most` successors.
pub fn sparse(random: &mut Random, states: usize, most: usize) -> Graph {
    let mut graph = Graph::empty(states);
    for state in 0..states {
        for _ in 0..random.between(1, most) {
            let onward = random.below(states);
            graph.join(state, onward);
        }
    }
    graph
}

/// A ring with a few chords.
pub fn ring(random: &mut Random, states: usize) -> Graph {
    let mut graph = Graph::empty(states);
    for state in 0..states {
        graph.join(state, (state + 1) % states);
    }
    for _ in 0..random.below(4) {
        let (from, to) = (random.below(states), random.below(states));
        graph.join(from, to);
    }
    graph
}

/// A chain whose last state stays, with a few ways back or to itself.
pub fn chain(random: &mut Random, states: usize) -> Graph {
    let mut graph = Graph::empty(states);
    for state in 0..states {
        graph.join(state, (state + 1).min(states - 1));
    }
    for _ in 0..random.below(4) {
        let from = random.below(states);
        let back = random.below(from + 1);
        graph.join(from, back);
    }
    graph
}

/// Each pair with an even chance, as far as the pairs fit.
fn dense(random: &mut Random, states: usize) -> Graph {
    let percent = if states <= 12 { 50 } else { 600 / states };
    let mut graph = Graph::empty(states);
    for state in 0..states {
        let sure = random.below(states);
        graph.join(state, sure);
    }
    for from in 0..states {
        for to in 0..states {
            if random.chance(percent) {
                graph.join(from, to);
            }
        }
    }
    graph
}

/// State 0, then layers of these widths, each joined wholly to the next, then one last state that stays.
pub fn layered(widths: &[usize]) -> Graph {
    let states = 2 + widths.iter().sum::<usize>();
    let mut graph = Graph::empty(states);
    let (mut begin, mut end) = (0, 1);
    for &width in widths.iter().chain(&[1]) {
        for from in begin..end {
            (end..end + width).for_each(|to| graph.join(from, to));
        }
        (begin, end) = (end, end + width);
    }
    graph.join(states - 1, states - 1);
    graph
}

/// A chain in which some steps can be made in two ways; every whole path has the same length.
pub fn diamonds(random: &mut Random, length: usize, doubled: usize) -> Graph {
    let mut widths = vec![1; length];
    for _ in 0..doubled {
        let place = random.below(length);
        widths[place] = 2;
    }
    layered(&widths)
}
