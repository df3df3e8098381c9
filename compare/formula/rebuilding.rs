//! Whether some accepted text yields a node list: the tree below a node is rebuilt, printed, read and listed anew.

use super::reading::{self, MOST_NODES};
use super::tree::{Formula, JOINTS, PREFIXES};

/// The formula whose node list this is.
pub fn of_whole(nodes: &[u16]) -> Option<Formula> {
    let formula = read_again(nodes, (nodes.len() / 3).checked_sub(1)?)?;
    (formula.nodes() == nodes).then_some(formula)
}

/// The formula that the list's nodes up to this one end with, its numbers shifted.
pub fn of_part(nodes: &[u16], node: usize) -> Option<Formula> {
    if nodes.len() > 3 * MOST_NODES || node >= nodes.len() / 3 {
        return None;
    }
    let formula = read_again(nodes, node)?;
    let first = (node + 1).checked_sub(formula.size())?;
    (formula.nodes_from(first) == nodes[3 * first..3 * (node + 1)]).then_some(formula)
}

/// Only what the reader accepts counts, so its limits need no second wording here.
fn read_again(nodes: &[u16], node: usize) -> Option<Formula> {
    let formula = rebuilt(nodes, node, &mut MOST_NODES.clone())?;
    let again = reading::read(formula.text().as_bytes()).ok()?;
    assert_eq!(again, formula, "a printed formula reads as another one");
    Some(formula)
}

/// The tree below a node; as nodes may be shared or in a circle, no more than `left` nodes are visited.
fn rebuilt(nodes: &[u16], node: usize, left: &mut usize) -> Option<Formula> {
    *left = left.checked_sub(1)?;
    let &[kind, one, other] = nodes.get(3 * node..3 * node + 3)? else {
        return None;
    };
    if let Some(operator) = PREFIXES.iter().position(|row| row.0 == kind) {
        return Some(rebuilt(nodes, one as usize, left)?.prefixed(operator));
    }
    if let Some(operator) = JOINTS.iter().position(|row| row.0 == kind) {
        let operand = rebuilt(nodes, one as usize, left)?;
        return Some(operand.joined(operator, rebuilt(nodes, other as usize, left)?));
    }
    match kind {
        0 => Some(Formula::True),
        1 => Some(Formula::Atom(one)),
        _ => None,
    }
}
