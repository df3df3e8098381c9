//! The cases about formulas that are stored: worked ones, every damage of a few texts and lists, every refusal.

use super::answering::{judging_case, part_case, printing_case, reading_case};
use super::tree::Formula;
use super::{damaging, edges, lists, reading, wrong};
use crate::kinds::Kinds;
use std::collections::BTreeSet;

pub const NODE_ROOM: usize = 192;
pub const TEXT_ROOM: usize = 4_096;

/// Accepted formulas of every shape.
#[rustfmt::skip]
pub const SHAPES: [&str; 40] = [
    "T", "p0", "p1", "p9", "p10", "p19", "p20", "p30", "p31", "!T", "!p31", "!!p3", "!!!!!T", "EX T", "EX p10",
    "EX EX p1", "!EX p0", "EX !p0", "!EX !EX !p2", "EX EX !!EX T", "(T&T)", "(p0&!p1)", "(!p0&EX p31)", "((p0&p1)&p2)",
    "(p0&(p1&p2))", "((p0&p1)&(p2&p3))", "!(p0&!p0)", "EX (p0&p1)", "E(T U p0)", "A(T U p0)", "E(!p0 U EX p1)",
    "A((p0&p1) U !T)", "E(E(p0 U p1) U p2)", "A(p0 U A(p1 U p2))", "EX E(p0 U p1)", "!A(T U !p0)",
    "(E(p0 U p1)&A(p2 U p3))", "E((p0&p1) U A(p2 U EX E(p3 U !p4)))", "!E(T U !(p0&EX !A(p1 U p2)))",
    "(((((T&p0)&p1)&p2)&p3)&EX !EX p4)",
];

/// All cases with the first seven kinds, none of them twice.
pub fn cases() -> Vec<Vec<u8>> {
    let shapes = SHAPES.iter().flat_map(|text| of_shape(text)).collect();
    let at_limits = at_limits(&edges::long_before(), &edges::many_nodes_before());
    once([shapes, wrong_texts(), wrong_lists(), parts(), at_limits, rooms(), judged()].concat())
}

pub fn once(cases: Vec<Vec<u8>>) -> Vec<Vec<u8>> {
    let mut seen = BTreeSet::new();
    cases.into_iter().filter(|case| seen.insert(case.clone())).collect()
}

/// A shape read, its list printed, and each node's part printed too.
pub fn of_shape(text: &str) -> Vec<Vec<u8>> {
    let list = lists::of(text);
    let nodes = (0..list.len() / 3).map(|node| part_case(TEXT_ROOM, node, &list));
    let whole = [reading_case(NODE_ROOM, text.as_bytes()), printing_case(TEXT_ROOM, &list)];
    whole.into_iter().chain(nodes).collect()
}

fn wrong_texts() -> Vec<Vec<u8>> {
    let by_bytes = damaging::TAKEN_APART.iter().flat_map(|text| damaging::byte_by_byte(Kinds::First, text));
    wrong::before().into_iter().chain(by_bytes).map(|text| reading_case(NODE_ROOM, &text)).collect()
}

fn wrong_lists() -> Vec<Vec<u8>> {
    let by_numbers = lists::TAKEN_APART.iter().flat_map(|text| lists::number_by_number(text));
    lists::by_hand().into_iter().chain(by_numbers).map(|list| printing_case(TEXT_ROOM, &list)).collect()
}

/// Parts between other nodes, with broken ones before and behind them, and nodes that are not there.
fn parts() -> Vec<Vec<u8>> {
    let formula = reading::read(b"E(!p0 U (T&p31))").unwrap();
    let mut found = Vec::new();
    for before in [&[][..], &[0, 0, 0], &[7, 9, 65_535, 2, 1, 0]] {
        for behind in [&[][..], &[0], &[2, 9], &[65_535, 0, 0], &[3, 0, 1, 0]] {
            let own = formula.nodes_from(before.len() / 3);
            let list = [before, &own, behind].concat();
            found.extend((0..=list.len() / 3).map(|node| part_case(TEXT_ROOM, node, &list)));
        }
    }
    // Numbered as if nothing stood before them.
    let unshifted = [&[0, 0, 0][..], &formula.nodes()].concat();
    found.extend((0..7).map(|node| part_case(TEXT_ROOM, node, &unshifted)));
    // Shared nodes: each is a part, what shares them is none.
    let shared = [1, 0, 0, 2, 0, 0, 3, 0, 1, 3, 1, 1, 4, 3, 0, 0, 0, 0, 2, 5, 0];
    found.extend([0, 1, 2, 3, 4, 5, 6, 7, 64, 65_535].map(|node| part_case(TEXT_ROOM, node, &shared)));
    // As many numbers as are allowed, and one more.
    for count in [191, 192, 193, 195] {
        let list: Vec<u16> = (0..count).map(|_| 0).collect();
        found.extend([0, 62, 63, 64].map(|node| part_case(TEXT_ROOM, node, &list)));
    }
    found.extend([0, 1].map(|node| part_case(TEXT_ROOM, node, &[])));
    found
}

/// The list of what is read at a limit is printed as well.
pub fn at_limits(long: &[Vec<u8>], many_nodes: &[Vec<u8>]) -> Vec<Vec<u8>> {
    let mut found: Vec<Vec<u8>> = long.iter().map(|text| reading_case(NODE_ROOM, text)).collect();
    for text in many_nodes {
        found.push(reading_case(NODE_ROOM, text));
        if let Ok(formula) = reading::read(text) {
            let list = formula.nodes();
            found.push(printing_case(TEXT_ROOM, &list));
            found.extend([1, 2].map(|back| part_case(TEXT_ROOM, list.len() / 3 - back, &list)));
        }
    }
    found
}

/// 24 comes before every other refusal and only below the limit.
fn rooms() -> Vec<Vec<u8>> {
    let many = (0..reading::MOST_NODES).fold(Formula::True, |formula, _| formula.prefixed(0));
    let mut found = Vec::new();
    for room in [0, 1, 191, 192, 193, 300] {
        let texts = [String::from("E(T U p0)"), String::from("E(T U p0"), String::new(), many.text()];
        found.extend(texts.map(|text| reading_case(room, text.as_bytes())));
    }
    found.push(reading_case(191, &b"T".repeat(reading::MOST_BYTES + 1)));
    for room in [0, 1, 192, 4_095, 4_096, 4_097, 4_200] {
        for list in [lists::of("E(T U p0)"), vec![0, 0, 1], Vec::new(), many.nodes()] {
            found.push(printing_case(room, &list));
            found.extend([0, 2].map(|node| part_case(room, node, &list)));
        }
    }
    found
}

/// One line of the first night's model as it is and as it is changed; the first leaves it as it is.
const CHANGES: [(&str, &str); 11] = [
    ("states=2", "states=2"),
    ("states=2", "states=0"),
    ("atoms=1", "atoms=33"),
    ("edges=2", "edges=0"),
    ("nodes=1", "nodes=65"),
    ("init=10", "init=00"),
    ("edge=1,1", "edge=1,2"),
    ("edge=1,1", "edge=0,1"),
    ("node=0,0,0", "node=7,0,0"),
    ("node=0,0,0", "node=0,0,00"),
    ("node=0,0,0\n", "node=0,0,0"),
];

/// The first night with its formula as text, and the order in which model, formula and tables are judged.
fn judged() -> Vec<Vec<u8>> {
    let night = "states=2\natoms=1\ninit=10\nlabel=U\nlabel=T\nedges=2\nedge=0,1\nedge=1,1\nnodes=1\nnode=0,0,0\n";
    let formulas =
        ["!p0", "p0", "EX p0", "!EX p0", "!(p0&!p0)", "E(T U p0)", "A(!p0 U p0)", "p1", "(p0&p31)", "(p0", "p32", ""];
    let many = "!".repeat(reading::MOST_NODES) + "p0";
    let mut found: Vec<Vec<u8>> =
        formulas.iter().map(|formula| judging_case(formula.as_bytes(), night.as_bytes())).collect();
    for (from, to) in CHANGES {
        let model = night.replacen(from, to, 1);
        let texts = ["p0", "p1", "p32", &many];
        found.extend(texts.map(|text| judging_case(text.as_bytes(), model.as_bytes())));
    }
    found.push(judging_case(b"p", &b"x".repeat(32_769)));
    found
}
