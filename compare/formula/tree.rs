//! A formula as a tree; its text and its node list are written down straight from the tree.

use crate::kinds::Kinds;

/// Kind number and sign of each operator that stands before its operand, the first kinds' first.
pub const PREFIXES: [(u16, &str); 7] =
    [(2, "!"), (4, "EX "), (9, "AX "), (10, "EF "), (11, "AF "), (12, "EG "), (13, "AG ")];

/// Kind number, first and middle sign of each operator in brackets; the last sign is the closing bracket.
pub const JOINTS: [(u16, &str, &str); 5] =
    [(3, "(", "&"), (5, "E(", " U "), (6, "A(", " U "), (7, "(", "|"), (8, "(", ">")];

/// How many of the prefixes are among these kinds.
pub fn prefixes(kinds: Kinds) -> usize {
    PREFIXES.iter().filter(|row| row.0 <= kinds.greatest()).count()
}

pub fn joints(kinds: Kinds) -> usize {
    JOINTS.iter().filter(|row| row.0 <= kinds.greatest()).count()
}

/// Operators are named by their places in the two tables above.
#[derive(Clone, Debug, PartialEq)]
pub enum Formula {
    True,
    Atom(u16),
    Prefixed(usize, Box<Formula>),
    Joined(usize, Box<Formula>, Box<Formula>),
}

use Formula::{Atom, Joined, Prefixed, True};

impl Formula {
    pub fn prefixed(self, operator: usize) -> Formula {
        Prefixed(operator, Box::new(self))
    }

    pub fn joined(self, operator: usize, right: Formula) -> Formula {
        Joined(operator, Box::new(self), Box::new(right))
    }

    /// How many nodes there are; nothing shared, so every place in the text is its own.
    pub fn size(&self) -> usize {
        let (mut count, mut open) = (0, vec![self]);
        while let Some(part) = open.pop() {
            count += 1;
            match part {
                True | Atom(_) => {}
                Prefixed(_, operand) => open.push(operand),
                Joined(_, left, right) => open.extend([&**left, &**right]),
            }
        }
        count
    }

    pub fn text(&self) -> String {
        match self {
            True => String::from("T"),
            Atom(number) => format!("p{number}"),
            Prefixed(operator, operand) => format!("{}{}", PREFIXES[*operator].1, operand.text()),
            Joined(operator, left, right) => {
                let (_, first, middle) = JOINTS[*operator];
                format!("{first}{}{middle}{})", left.text(), right.text())
            }
        }
    }

    /// The node list if its first node has this number: operands first, left before right, the whole last.
    pub fn nodes_from(&self, first: usize) -> Vec<u16> {
        let last = |nodes: &[u16]| (first + nodes.len() / 3) as u16 - 1;
        match self {
            True => vec![0, 0, 0],
            Atom(number) => vec![1, *number, 0],
            Prefixed(operator, operand) => {
                let nodes = operand.nodes_from(first);
                let node = [PREFIXES[*operator].0, last(&nodes), 0];
                [&nodes[..], &node].concat()
            }
            Joined(operator, left, right) => {
                let lefts = left.nodes_from(first);
                let both = [&lefts[..], &right.nodes_from(first + lefts.len() / 3)].concat();
                let node = [JOINTS[*operator].0, last(&lefts), last(&both)];
                [&both[..], &node].concat()
            }
        }
    }

    pub fn nodes(&self) -> Vec<u16> {
        self.nodes_from(0)
    }

    /// The same formula with its atoms numbered otherwise.
    pub fn renamed(&self, moved: &impl Fn(u16) -> u16) -> Formula {
        match self {
            True => True,
            Atom(number) => Atom(moved(*number)),
            Prefixed(operator, operand) => operand.renamed(moved).prefixed(*operator),
            Joined(operator, left, right) => left.renamed(moved).joined(*operator, right.renamed(moved)),
        }
    }
}
