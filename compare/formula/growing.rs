//! Random formulas of every shape, with a wanted number of nodes or with wanted atoms.

use super::reading::{MOST_ATOMS, MOST_NODES};
use super::tree::{self, Formula};
use crate::random::Random;

/// A formula with exactly so many nodes, its atoms any.
pub fn of_size(random: &mut Random, nodes: usize) -> Formula {
    let most = nodes.div_ceil(2);
    let leaves = match random.below(4) {
        0 => 1,
        1 => most,
        _ => random.between(1, most),
    };
    let atoms = random.pick(&[1, 2, 4, 12, MOST_ATOMS as usize]);
    let leaves: Vec<Formula> = (0..leaves).map(|_| leaf(random, atoms)).collect();
    let prefixes = nodes + 1 - 2 * leaves.len();
    grown(random, leaves, prefixes)
}

/// Mostly a small formula, seldom one near or at the limit.
pub fn any(random: &mut Random) -> Formula {
    let nodes = match random.weighted(&[60, 30, 7, 3]) {
        0 => random.between(1, 9),
        1 => random.between(10, 25),
        2 => random.between(26, MOST_NODES - 1),
        _ => MOST_NODES,
    };
    of_size(random, nodes)
}

/// A formula that names each of the first `atoms` atoms and no others.
pub fn naming(random: &mut Random, atoms: usize) -> Formula {
    let mut leaves: Vec<Formula> = (0..atoms as u16).map(Formula::Atom).collect();
    let further = random.below(4).max((atoms == 0) as usize);
    leaves.extend((0..further).map(|_| leaf(random, atoms)));
    random.shuffle(&mut leaves);
    let most = (MOST_NODES + 1 - 2 * leaves.len()).min(7);
    let prefixes = random.below(most + 1);
    grown(random, leaves, prefixes)
}

fn leaf(random: &mut Random, atoms: usize) -> Formula {
    match atoms == 0 || random.chance(12) {
        true => Formula::True,
        false => Formula::Atom(random.below(atoms) as u16),
    }
}

/// The leaves joined in their order, with so many prefixes on the way; bushy, or deep to one side.
fn grown(random: &mut Random, mut parts: Vec<Formula>, mut prefixes: usize) -> Formula {
    let shape = random.below(3);
    while parts.len() + prefixes > 1 {
        let joints = parts.len() - 1;
        let last = joints.saturating_sub(1);
        let place = [random.below(last + 1), 0, last][shape];
        let part = parts.remove(place);
        let made = if random.below(joints + prefixes) < prefixes {
            prefixes -= 1;
            part.prefixed(random.below(tree::prefixes(random.kinds)))
        } else {
            let right = parts.remove(place);
            part.joined(random.below(tree::joints(random.kinds)), right)
        };
        parts.insert(place, made);
    }
    parts.remove(0)
}
