//! The sets of kinds that cases draw from; the cases that were stored first keep to the first seven.

use crate::random::Random;

#[derive(Clone, Copy, Debug, PartialEq)]
pub enum Kinds {
    First,
    All,
}

use Kinds::{All, First};

impl Kinds {
    pub fn greatest(self) -> u16 {
        self.choose(6, 13)
    }

    /// The one for the first kinds, the other for all.
    pub fn choose<T>(self, first: T, all: T) -> T {
        match self {
            First => first,
            All => all,
        }
    }

    /// Whether a node list has none but these kinds.
    pub fn hold(self, nodes: &[u16]) -> bool {
        nodes.chunks(3).all(|node| node[0] <= self.greatest())
    }

    /// A number that is none of these kinds, just above them or far.
    pub fn no_kind(self, random: &mut Random) -> u16 {
        random.pick(self.choose(&[7, 8, 9, 255, 256, 65_535][..], &[14, 15, 16, 255, 256, 263, 269, 65_535]))
    }

    /// Whether a refusal of a case drawn from these kinds may be none any more.
    pub fn lifted(self, refusal: u16) -> bool {
        self == First && [11, 20].contains(&refusal)
    }
}
