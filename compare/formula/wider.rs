//! The stored cases about formulas with kinds behind the first seven: their signs and kinds, and what is near to them.

use super::answering::{judging_case, part_case, printing_case, reading_case};
use super::listed::{at_limits, of_shape, once, NODE_ROOM, TEXT_ROOM};
use super::{damaging, edges, lists, reading, wrong};
use crate::kinds::Kinds;

/// Accepted formulas of every shape.
#[rustfmt::skip]
pub const SHAPES: [&str; 36] = [
    "AX T", "AX p0", "EF p1", "AF p31", "EG T", "AG p10", "(T|T)", "(p0|p1)", "(T>T)", "(p0>p1)", "(p1>p0)", "!AX p0",
    "AX !p0", "EX AX p0", "AX EX AX p2", "EF AG p0", "AG EF p0", "AF EG !p3", "EG AF EX p4", "((p0|p1)|p2)",
    "(p0|(p1|p2))", "((p0>p1)>p2)", "(p0>(p1>p2))", "((p0|p1)>(p2&p3))", "((p0>p1)&(p2|p3))", "(!p0|EX p31)",
    "(AX p0>!p1)", "AG (p0>AF p1)", "AG (p0>EF (p1|p2))", "!EF !AG p5", "E((p0|p1) U AX p2)", "A(AG p0 U (p1>p2))",
    "(E(p0 U p1)|A(p2 U p3))", "EF (A(p0 U p1)>EG p2)", "AG AF EG EF AX EX !T", "(((((T|p0)>p1)&p2)|p3)>AG AX p4)",
];

/// Formulas that are taken apart byte by byte, and those whose lists are number by number.
pub const TAKEN_APART: [&str; 6] =
    ["AX p0", "!EF AG T", "(p0|!T)", "(p1>AF p20)", "E((T|p3) U EG p10)", "AG (p0>AX (p1|p31))"];
pub const LISTS_TAKEN_APART: [&str; 4] = ["AX p0", "(p3|!p1)", "(EF p0>p1)", "AG (p0>AF EG p2)"];

/// Formulas asked of the first night, those that its one atom allows first.
#[rustfmt::skip]
const ASKED: [&str; 32] = [
    "AX p0", "EF p0", "AF p0", "EG p0", "AG p0", "AX !p0", "EF !p0", "AF !p0", "EG !p0", "AG !p0", "(p0|!p0)",
    "(p0|AX p0)", "(p0>p0)", "(p0>!p0)", "(!p0>p0)", "(p0>AX p0)", "(AX p0>p0)", "(T>p0)", "(p0>!T)", "AG (p0>AF p0)",
    "AG EF p0", "EF AG !p0", "E((p0|T) U AG p0)", "A(EG p0 U (p0>!p0))", "(p0>p1)", "AG p31", "(p0>p1", "AGp0",
    "EF  p0", "(p0->p0)", "AG (p0>AFp0)", "(p0|p0|p0)",
];

pub fn cases() -> Vec<Vec<u8>> {
    let shapes = SHAPES.iter().flat_map(|text| of_shape(text)).collect();
    let at_limits = at_limits(&edges::long_since(), &edges::many_nodes_since());
    once([shapes, wrong_texts(), wrong_lists(), parts(), at_limits, judged()].concat())
}

fn wrong_texts() -> Vec<Vec<u8>> {
    let by_bytes = TAKEN_APART.iter().flat_map(|text| damaging::byte_by_byte(Kinds::All, text));
    wrong::since().into_iter().chain(by_bytes).map(|text| reading_case(NODE_ROOM, &text)).collect()
}

fn wrong_lists() -> Vec<Vec<u8>> {
    let by_numbers = LISTS_TAKEN_APART.iter().flat_map(|text| lists::number_by_number(text));
    by_kinds().into_iter().chain(by_numbers).map(|list| printing_case(TEXT_ROOM, &list)).collect()
}

/// Each kind, and numbers that are none: without a node before it, with one, with one that is shared or unused.
fn by_kinds() -> Vec<Vec<u16>> {
    let kinds = (7..=15).chain([255, 263, 269, 65_535]);
    let of_kind = |kind: u16| {
        let lists: [&[u16]; 8] = [
            &[kind, 0, 0],
            &[0, 0, 0, kind, 0, 0],
            &[0, 0, 0, kind, 0, 1],
            &[0, 0, 0, kind, 1, 0],
            &[0, 0, 0, 1, 3, 0, kind, 0, 1],
            &[0, 0, 0, 1, 3, 0, kind, 1, 0],
            &[0, 0, 0, 1, 3, 0, kind, 1, 2],
            &[0, 0, 0, kind, 0, 0, 2, 1, 0],
        ];
        lists.map(|list| list.to_vec())
    };
    kinds.flat_map(of_kind).collect()
}

/// Parts between other nodes, with broken ones before and behind them; shared nodes of every kind.
fn parts() -> Vec<Vec<u8>> {
    let formula = reading::read(b"AG ((p0|T)>EX p31)").unwrap();
    let mut found = Vec::new();
    for before in [&[][..], &[14, 9, 65_535, 9, 1, 0]] {
        for behind in [&[][..], &[8], &[13, 0, 0], &[7, 0, 1, 0]] {
            let own = formula.nodes_from(before.len() / 3);
            let list = [before, &own, behind].concat();
            found.extend((0..=list.len() / 3).map(|node| part_case(TEXT_ROOM, node, &list)));
        }
    }
    let shared = [1, 0, 0, 9, 0, 0, 10, 1, 0, 11, 2, 0, 12, 3, 0, 13, 4, 0, 7, 5, 5, 8, 5, 0, 0, 0, 0, 13, 8, 0];
    found.extend((0..=10).map(|node| part_case(TEXT_ROOM, node, &shared)));
    found
}

/// Each formula on the first night, some on that night with a line changed, and the order of their refusals.
fn judged() -> Vec<Vec<u8>> {
    let night = "states=2\natoms=1\ninit=10\nlabel=U\nlabel=T\nedges=2\nedge=0,1\nedge=1,1\nnodes=1\nnode=14,9,9\n";
    let mut found: Vec<Vec<u8>> =
        ASKED.iter().map(|formula| judging_case(formula.as_bytes(), night.as_bytes())).collect();
    for (from, to) in
        [("node=14,9,9", "node=0"), ("init=10", "init=00"), ("edge=1,1", "edge=0,1"), ("label=U", "label=F")]
    {
        let model = night.replacen(from, to, 1);
        let texts = ["AG p0", "(p0>p1)", "(p0->p0)"];
        found.extend(texts.map(|text| judging_case(text.as_bytes(), model.as_bytes())));
    }
    found
}
