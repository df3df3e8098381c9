//! The stored models about or, implies, AX, EF, AF, EG and AG: every value of their operands, each of their refusals.

use crate::limits::model_case;
use crate::model::Model;

/// The rows of p0, of AX, EF, AF, EG and AG of it, and of the same of its negation.
#[rustfmt::skip]
const ALONG: [u16; 36] = [
    1, 0, 0, 9, 0, 0, 10, 0, 0, 11, 0, 0, 12, 0, 0, 13, 0, 0,
    2, 0, 0, 9, 6, 0, 10, 6, 0, 11, 6, 0, 12, 6, 0, 13, 6, 0,
];

/// Three states: two ends, a way on that may be put off, a ring with a way back, all joined to all.
const GRAPHS: [&[u16]; 4] = [
    &[0, 1, 0, 2, 1, 1, 2, 2],
    &[0, 0, 0, 1, 1, 1, 1, 2, 2, 2],
    &[0, 1, 1, 0, 1, 2, 2, 0],
    &[0, 0, 0, 1, 0, 2, 1, 0, 1, 1, 1, 2, 2, 0, 2, 1, 2, 2],
];

pub fn cases() -> Vec<Vec<u8>> {
    let models = [vec![pairs()], along(), vec![chain(), ring()], kinds(), operands()].concat();
    models.iter().map(|model| model_case(model.text())).collect()
}

/// Nine states that stay, with every pair of values: or and implies, their operands in both orders and alike.
pub fn pairs() -> Model {
    let labels = (0..9).flat_map(|state| [state / 3, state % 3]).collect();
    let transitions = (0..9).flat_map(|state| [state, state]).collect();
    let nodes = vec![1, 0, 0, 1, 1, 0, 7, 0, 1, 8, 0, 1, 8, 1, 0, 7, 0, 0, 8, 1, 1];
    Model { states: 9, atoms: 2, labels, initial: vec![1; 9], transitions, nodes }
}

/// Each graph with every value at each of its states.
fn along() -> Vec<Model> {
    let labels = |choice: u8| vec![choice / 9, choice / 3 % 3, choice % 3];
    let all = GRAPHS.iter().flat_map(|graph| (0..27).map(move |choice| (graph.to_vec(), labels(choice))));
    all.map(|(graph, labels)| walked(graph, labels)).collect()
}

pub fn walked(transitions: Vec<u16>, labels: Vec<u8>) -> Model {
    let states = labels.len();
    let initial = (0..states).map(|state| (state == 0) as u8).collect();
    Model { states, atoms: 1, labels, initial, transitions, nodes: ALONG.to_vec() }
}

/// As many states as are allowed, the last one seen from the first by none but the last entry of its walk.
fn chain() -> Model {
    let labels = (0..=255).map(|state| if state == 255 { 2 } else { (state == 128) as u8 });
    walked((0..=255).flat_map(|state| [state, (state + 1).min(255)]).collect(), labels.collect())
}

fn ring() -> Model {
    let labels = (0..=255).map(|state| if state == 255 { 0 } else { 2 - (state == 128) as u8 });
    walked((0..=255).flat_map(|state| [state, (state + 1) % 256]).collect(), labels.collect())
}

/// One node behind two atoms, on two states.
fn behind_atoms(node: [u16; 3]) -> Model {
    let nodes = [&[1, 0, 0, 1, 1, 0][..], &node].concat();
    Model { states: 2, atoms: 2, labels: vec![0, 1, 2, 0], initial: vec![1, 0], transitions: vec![0, 1, 1, 0], nodes }
}

/// Numbers up to the greatest kind and above it; above it 11 comes before what the other numbers are.
fn kinds() -> Vec<Model> {
    let kinds = (7..=17).chain([23, 31, 64, 127, 128, 255, 256, 263, 269, 511, 32_775, 65_535]);
    kinds.flat_map(|kind| [[kind, 0, 0], [kind, 1, 0], [kind, 9, 9]]).map(behind_atoms).collect()
}

/// Each kind with each number just allowed and just not: 12.
fn operands() -> Vec<Model> {
    let numbers = [[0, 1], [1, 1], [2, 0], [2, 1], [0, 2], [1, 2], [3, 0], [0, 3], [63, 0], [0, 64], [65_535, 0]];
    let nodes = (7..=13).flat_map(|kind| numbers.map(|[left, right]| [kind, left, right]));
    nodes.chain((7..=13).map(|kind| [kind, 0, 65_535])).map(behind_atoms).collect()
}
