//! Random models that are accepted: every atom is named by a node, and each verdict is wanted equally often.

use crate::graphs;
use crate::judge::judge_whole;
use crate::model::Model;
use crate::random::Random;

/// A model of any shape; of a few tries the first one whose verdict is the wanted one.
pub fn any(random: &mut Random) -> Model {
    let wanted = random.below(3) as u8;
    let mut model = draw(random);
    for _ in 0..5 {
        if judge_whole(&model).unwrap().verdict == wanted {
            break;
        }
        model = draw(random);
    }
    model
}

/// A model with few states, atoms and nodes, to be spoiled afterwards.
pub fn small(random: &mut Random) -> Model {
    let (states, atoms) = (random.between(1, 6), random.between(0, 4));
    let nodes = atoms.max(1) + random.below(5);
    with_counts(random, states, atoms, nodes)
}

fn draw(random: &mut Random) -> Model {
    let states = match random.weighted(&[86, 12, 2]) {
        0 => random.between(1, 12),
        1 => random.between(13, 60),
        _ => random.between(61, 256),
    };
    let atoms = match random.weighted(&[7, 76, 12, 5]) {
        0 => 0,
        1 => random.between(1, 4),
        2 => random.between(5, 10),
        _ => random.between(11, 32),
    };
    let further = match random.weighted(&[5, 60, 25, 10]) {
        0 => 0,
        1 => random.between(1, 6),
        2 => random.between(7, 20),
        _ => random.between(21, 64),
    };
    // Wide models have few nodes, so that most answers stay short.
    let most = if states > 60 { atoms + 4 } else { 64 };
    let nodes = (atoms + further).clamp(1, most.clamp(1, 64));
    with_counts(random, states, atoms, nodes)
}

/// A model with exactly these counts; there must be a node for every atom.
pub fn with_counts(random: &mut Random, states: usize, atoms: usize, nodes: usize) -> Model {
    let transitions = graphs::any(random, states).transitions();
    let labels = labels(random, states, atoms);
    let initial = initial(random, states);
    Model { states, atoms, labels, initial, transitions, nodes: formulas(random, atoms, nodes) }
}

/// Each atom has its own mixture of false, unknown and true.
fn labels(random: &mut Random, states: usize, atoms: usize) -> Vec<u8> {
    let mixtures = [[1, 1, 1], [5, 1, 1], [1, 1, 5], [1, 4, 1], [4, 4, 1], [1, 4, 4], [1, 0, 1]];
    let known = random.chance(12);
    let of_atom: Vec<[usize; 3]> = (0..atoms).map(|_| if known { [1, 0, 1] } else { random.pick(&mixtures) }).collect();
    (0..states * atoms).map(|place| random.weighted(&of_atom[place % atoms]) as u8).collect()
}

fn initial(random: &mut Random, states: usize) -> Vec<u8> {
    let percent = random.pick(&[0, 30, 60, 100]);
    let mut initial: Vec<u8> = (0..states).map(|_| random.chance(percent) as u8).collect();
    let sure = random.below(states);
    initial[sure] = 1;
    initial
}

/// How often each kind is drawn, the first seven.
const FIRST: [[usize; 7]; 4] =
    [[1, 1, 4, 4, 3, 5, 5], [1, 1, 1, 1, 1, 9, 9], [0, 0, 3, 0, 0, 5, 5], [1, 1, 6, 6, 6, 1, 1]];

/// And all: evenly, more of those about walks, more of the others, none without an operand. Atoms come anyway.
const ALL: [[usize; 14]; 4] = [
    [3, 1, 3, 3, 3, 3, 3, 3, 3, 3, 3, 3, 3, 3],
    [3, 1, 2, 2, 2, 5, 5, 2, 2, 2, 5, 5, 5, 5],
    [3, 1, 5, 5, 5, 2, 2, 5, 5, 5, 2, 2, 2, 2],
    [0, 0, 3, 3, 3, 3, 3, 3, 3, 3, 3, 3, 3, 3],
];

/// Nodes for all atoms first (without atoms the constant), then a mixture of the kinds.
pub fn formulas(random: &mut Random, atoms: usize, count: usize) -> Vec<u16> {
    let mut numbers: Vec<u16> = (0..atoms as u16).collect();
    random.shuffle(&mut numbers);
    let mut nodes: Vec<[u16; 3]> = numbers.iter().map(|&atom| [1, atom, 0]).collect();
    if nodes.is_empty() {
        nodes.push([0, 0, 0]);
    }
    let which = random.below(4);
    let mixture = random.kinds.choose(&FIRST[which][..], &ALL[which]);
    while nodes.len() < count {
        let kind = random.weighted(mixture) as u16;
        nodes.push(node(random, kind, nodes.len(), atoms));
    }
    nodes.concat()
}

fn node(random: &mut Random, kind: u16, place: usize, atoms: usize) -> [u16; 3] {
    let (recent, other) = (operand(random, place), random.below(place) as u16);
    match kind {
        1 if atoms > 0 => [1, random.below(atoms) as u16, 0],
        2 | 4 | 9..=13 => [kind, recent, 0],
        3 | 5..=8 if random.chance(50) => [kind, recent, other],
        3 | 5..=8 => [kind, other, recent],
        _ => [0, 0, 0],
    }
}

/// An earlier node, mostly one of the latest, so that the formulas grow deep.
fn operand(random: &mut Random, place: usize) -> u16 {
    let back = match random.weighted(&[60, 20, 20]) {
        0 => 1,
        1 => random.between(1, place.min(3)),
        _ => random.between(1, place),
    };
    (place - back) as u16
}
