//! The stored cases about named atoms: each count of atoms, each atom forgotten, each kind that has the atom's number,
//! 22 behind every other number, and formulas that have lost an atom.

use crate::formula::answering::judging_case;
use crate::limits::model_case;
use crate::model::Model;
use crate::random::Random;
use crate::spoiled;

const MOST_ATOMS: u16 = 32;
const CONSTANT: [u16; 3] = [0, 0, 0];

pub fn cases() -> Vec<Vec<u8>> {
    let models = [counts(), forgotten(), by_another_kind(), anywhere(), behind_others()].concat();
    models.iter().map(|model| model_case(model.text())).chain(asked()).collect()
}

/// Two states that lead to each other, every label another than the one before.
pub fn with_nodes(atoms: usize, nodes: &[[u16; 3]]) -> Model {
    let labels = (0..2 * atoms).map(|place| (place % 3) as u8).collect();
    Model { states: 2, atoms, labels, initial: vec![1, 0], transitions: vec![0, 1, 1, 0], nodes: nodes.concat() }
}

/// A node for each of these atoms.
pub fn naming(atoms: impl Iterator<Item = u16>) -> Vec<[u16; 3]> {
    atoms.map(|atom| [1, atom, 0]).collect()
}

/// From no atom to the most: all are named, and none is.
fn counts() -> Vec<Model> {
    let all = (0..=MOST_ATOMS).map(|atoms| with_nodes(atoms as usize, &[&[CONSTANT], &naming(0..atoms)[..]].concat()));
    all.chain((0..=MOST_ATOMS).map(|atoms| with_nodes(atoms as usize, &[CONSTANT]))).collect()
}

/// Each atom of the most is the one that is forgotten.
fn forgotten() -> Vec<Model> {
    let others = |lost: u16| naming((0..MOST_ATOMS).filter(move |&atom| atom != lost));
    (0..MOST_ATOMS).map(|lost| with_nodes(MOST_ATOMS as usize, &others(lost))).collect()
}

/// Each kind with the number of an atom that no node names, on either side where it uses both.
pub fn by_another_kind() -> Vec<Model> {
    let before = [naming(0..2), vec![CONSTANT]].concat();
    let one = [2, 4].into_iter().chain(9..=13).map(|kind| [kind, 2, 0]);
    let two = [3].into_iter().chain(5..=8).flat_map(|kind| [[kind, 2, 2], [kind, 2, 0], [kind, 0, 2]]);
    one.chain(two).map(|node| with_nodes(3, &[&before[..], &[node]].concat())).collect()
}

/// Named by the first node, by the last, by one that no other uses, twice, and in any order.
fn anywhere() -> Vec<Model> {
    let lists: [&[[u16; 3]]; 7] = [
        &[[1, 0, 0], [1, 1, 0], CONSTANT],
        &[CONSTANT, [1, 1, 0], [1, 0, 0]],
        &[[1, 1, 0], [2, 0, 0], [1, 0, 0], [4, 1, 0]],
        &[[1, 0, 0], [1, 0, 0], [1, 1, 0]],
        &[[1, 0, 0], [1, 0, 0], [1, 0, 0]],
        &[[1, 1, 0], [1, 1, 0], [3, 0, 1]],
        &[[1, 0, 0], [10, 0, 0], [3, 1, 0], [1, 1, 0]],
    ];
    lists.iter().map(|nodes| with_nodes(2, nodes)).collect()
}

/// Each other cause of judging a text beside it, which comes first.
fn behind_others() -> Vec<Model> {
    let spoiled = spoiled::CAUSES.iter().map(|&cause| {
        let mut model = with_nodes(3, &[[1, 0, 0], [1, 2, 0], [3, 0, 1]]);
        spoiled::spoil(&mut Random::of_case(6, cause as u64), &mut model, cause);
        model
    });
    let counts = [with_nodes(33, &naming(0..31)), with_nodes(3, &[]), with_nodes(3, &[CONSTANT; 65])];
    spoiled.chain(counts).collect()
}

/// Formulas on three atoms: with all of them, without one, with one too many, and with what is no formula.
#[rustfmt::skip]
const ASKED: [&str; 20] = [
    "(p0&(p1&p2))", "((p2|p1)>p0)", "E(p0 U (p1&p2))", "A((p2&p1) U AG p0)", "(p0&(p1&(p2|T)))", "((p0&p0)&(p1&p2))",
    "p0", "T", "(p0&p1)", "(p0&p2)", "(p1&p2)", "E(p0 U p1)", "AG (p0>AF p2)", "(p1&(p1&p2))", "((p0|T)&(p2|T))",
    "(p0&p3)", "(p0&(p1&(p2&p3)))", "p31", "p32", "(p0&p1",
];

/// Each asked of a model whose own nodes name every atom, and of one whose own nodes name none; on fewer atoms too.
fn asked() -> Vec<Vec<u8>> {
    let models = [
        with_nodes(3, &naming(0..3)),
        with_nodes(3, &[CONSTANT]),
        with_nodes(1, &[CONSTANT]),
        with_nodes(0, &[CONSTANT]),
    ];
    let on = |model: &Model| ASKED.map(|formula| judging_case(formula.as_bytes(), &model.text()));
    let most: Vec<String> = (0..MOST_ATOMS).map(|atom| format!("p{atom}")).collect();
    let whole = with_nodes(MOST_ATOMS as usize, &[CONSTANT]);
    let both = [&most[..], &most[1..], &most[..31]].map(|atoms| judging_case(joined(atoms).as_bytes(), &whole.text()));
    models.iter().flat_map(on).chain(both).collect()
}

/// All of these, joined by `&`.
fn joined(parts: &[String]) -> String {
    let last = parts.len() - 1;
    parts[..last].iter().rev().fold(parts[last].clone(), |behind, part| format!("({part}&{behind})"))
}
