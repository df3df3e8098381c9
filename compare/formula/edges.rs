//! Texts at the limits: the deepest, the longest, the most nodes, each from both sides.

use super::reading::{MOST_BYTES, MOST_NODES};
use crate::kinds::Kinds;

/// A sign so many times, then the inner text, then another sign as often.
fn nest(before: &str, depth: usize, inner: &str, after: &str) -> Vec<u8> {
    [before.repeat(depth), inner.to_string(), after.repeat(depth)].concat().into_bytes()
}

/// Texts of about 4,096 bytes; those within the grammar have far more than 64 nodes.
pub fn long(kinds: Kinds) -> Vec<Vec<u8>> {
    kinds.choose(long_before(), [long_before(), long_since()].concat())
}

pub fn many_nodes(kinds: Kinds) -> Vec<Vec<u8>> {
    kinds.choose(many_nodes_before(), [many_nodes_before(), many_nodes_since()].concat())
}

/// Those with the signs of the first seven kinds.
pub fn long_before() -> Vec<Vec<u8>> {
    let quarter = MOST_BYTES / 4 - 1;
    vec![
        nest("(", MOST_BYTES, "", ""),
        nest("(", MOST_BYTES + 1, "", ""),
        nest("!", MOST_BYTES, "", ""),
        nest("!", MOST_BYTES - 1, "T", ""),
        nest("!", MOST_BYTES, "T", ""),
        nest("!", MOST_BYTES - 2, "T ", ""),
        nest("EX ", (MOST_BYTES - 1) / 3, "T", ""),
        nest("(T&", quarter, "!!!T", ")"),
        nest("(T&", quarter, "!!!!T", ")"),
        nest("(T&", (MOST_BYTES - 1) / 3, "T", ""),
        nest("(", quarter, "!!!T", "&T)"),
        nest("E(T U ", (MOST_BYTES - 1) / 7, "T", ")"),
    ]
}

/// Those with the signs of the kinds behind them.
pub fn long_since() -> Vec<Vec<u8>> {
    let (quarter, third) = (MOST_BYTES / 4 - 1, (MOST_BYTES - 1) / 3);
    vec![
        nest("AX ", third, "T", ""),
        nest("AG ", third, "!T", ""),
        nest("EF ", third, "", ""),
        nest("EG AF ", third / 2, "!!!T", ""),
        nest("(T|", quarter, "!!!T", ")"),
        nest("(T>", quarter, "!!!!T", ")"),
        nest("(T>", third, "T", ""),
        nest("(", quarter, "!!!T", ">T)"),
        nest("(", quarter, "!!!T", "|T)"),
        nest("(AG T>", (MOST_BYTES - 1) / 7, "T", ")"),
    ]
}

/// Texts with one node less than the limit, as many, and more; then some that break the grammar behind it.
pub fn many_nodes_before() -> Vec<Vec<u8>> {
    let mut found = Vec::new();
    for nodes in MOST_NODES - 1..=MOST_NODES + 2 {
        // An even count needs one prefix beside the operators in brackets.
        let (joints, inner) = ((nodes - 1) / 2, ["!p31", "p31"][nodes % 2]);
        found.push(nest("!", nodes - 1, "T", ""));
        found.push(nest("EX ", nodes - 1, "p31", ""));
        found.push(nest("(T&", joints, inner, ")"));
        found.push(nest("(", joints, inner, "&p0)"));
        found.push(nest("E(p31 U ", joints, inner, ")"));
        found.push(nest("A(", joints, inner, " U p30)"));
        let pairs = nest("E(p1 U A(T U ", joints / 2, inner, "))");
        found.push(if joints % 2 == 0 { pairs } else { [b"(p9&".to_vec(), pairs, b")".to_vec()].concat() });
    }
    found.extend([nest("!", MOST_NODES, "T ", ""), nest("!", MOST_NODES, "", ""), nest("(T&", MOST_NODES, "T", "")]);
    found
}

/// The same with the other signs.
pub fn many_nodes_since() -> Vec<Vec<u8>> {
    let mut found = Vec::new();
    for nodes in MOST_NODES - 1..=MOST_NODES + 2 {
        let (joints, inner) = ((nodes - 1) / 2, ["EF p31", "p31"][nodes % 2]);
        found.extend(["AX ", "EF ", "AF ", "EG ", "AG "].map(|sign| nest(sign, nodes - 1, "p31", "")));
        found.push(nest("(T|", joints, inner, ")"));
        found.push(nest("(", joints, inner, ">p0)"));
        found.push(nest("(p31>", joints, inner, ")"));
        found.push(nest("(", joints, inner, "|p30)"));
    }
    found.extend([
        nest("AG ", MOST_NODES, "T ", ""),
        nest("EF ", MOST_NODES, "", ""),
        nest("(T>", MOST_NODES, "T", ""),
    ]);
    found
}
