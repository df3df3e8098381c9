//! Node lists that are wrong in one place: number by number, by hand, and at random.

use super::reading::{self, MOST_NODES};
use super::tree::{Formula, JOINTS};
use crate::random::Random;

/// Formulas whose lists are taken apart number by number.
pub const TAKEN_APART: [&str; 6] = ["T", "p31", "EX !p0", "(p3&!p1)", "A(EX p0 U (T&p1))", "!((p0&p1)&E(EX p2 U p31))"];

/// The node list of a text that is known to be accepted.
pub fn of(text: &str) -> Vec<u16> {
    reading::read(text.as_bytes()).expect(text).nodes()
}

/// Each number one more and one less, the operands exchanged, the last numbers missing, one number too many.
pub fn number_by_number(text: &str) -> Vec<Vec<u16>> {
    let list = of(text);
    let mut found = Vec::new();
    for place in 0..list.len() {
        let changed = |number: u16| [&list[..place], &[number], &list[place + 1..]].concat();
        found.push(changed(list[place] + 1));
        found.extend(list[place].checked_sub(1).map(changed));
        found.push(list[..place].to_vec());
    }
    for place in (0..list.len()).step_by(3).filter(|&place| JOINTS.iter().any(|row| row.0 == list[place])) {
        let mut exchanged = list.clone();
        exchanged.swap(place + 1, place + 2);
        found.push(exchanged);
    }
    found.extend((1..=3).map(|more| [&list[..], &vec![0; more]].concat()));
    found
}

/// Lists that no accepted text yields, each by its own cause, and a few beside them that one does.
#[rustfmt::skip]
const BY_HAND: &[&[u16]] = &[
    // Too short, an unused number, an atom that is or isn't one, an operand that isn't there, a kind that is none.
    &[], &[0], &[0, 0], &[0, 0, 0, 0], &[0, 1, 0], &[0, 0, 1], &[0, 65_535, 0], &[1, 0, 0], &[1, 31, 0], &[1, 32, 0],
    &[1, 65_535, 0], &[1, 0, 1], &[2, 0, 0], &[3, 0, 0], &[4, 1, 0], &[7, 0, 0], &[8, 0, 0], &[256, 0, 0],
    &[65_535, 0, 0], &[0, 0, 0, 7, 0, 0], &[0, 0, 0, 9, 0, 0], &[0, 0, 0, 258, 0, 0],
    // An operand that is the node itself, or a later one; a shared node.
    &[0, 0, 0, 2, 1, 0], &[2, 1, 0, 0, 0, 0], &[0, 0, 0, 3, 0, 0],
    // A node that nothing uses: before, between, behind.
    &[0, 0, 0, 0, 0, 0], &[1, 0, 0, 0, 0, 0, 2, 1, 0], &[0, 0, 0, 1, 0, 0, 2, 0, 0], &[0, 0, 0, 2, 0, 0, 0, 0, 0],
    // The right part before the left one, and the same in its order.
    &[0, 0, 0, 1, 0, 0, 3, 1, 0], &[0, 0, 0, 1, 0, 0, 3, 0, 1], &[1, 0, 0, 1, 1, 0, 2, 0, 0, 3, 2, 1],
];

/// Those above, and some with about as many nodes as are allowed.
pub fn by_hand() -> Vec<Vec<u16>> {
    let mut found: Vec<Vec<u16>> = BY_HAND.iter().map(|list| list.to_vec()).collect();
    // Each node twice as large as the one before: a reader that follows operands must end all the same.
    found.push(
        (0..MOST_NODES as u16).flat_map(|node| [3 * (node > 0) as u16, node.max(1) - 1, node.max(1) - 1]).collect(),
    );
    found.extend([MOST_NODES - 1, MOST_NODES, MOST_NODES + 1, MOST_NODES + 6].iter().map(|&count| chain(count)));
    found
}

/// EX of EX of .. of T with so many nodes; the library's limit doesn't count here.
fn chain(nodes: usize) -> Vec<u16> {
    (1..nodes).fold(Formula::True, |formula, _| formula.prefixed(1)).nodes()
}

const FIRST_NUMBERS: [u16; 15] = [0, 1, 2, 3, 4, 5, 6, 7, 31, 32, 63, 64, 255, 256, 65_535];
const NUMBERS: [u16; 22] = [0, 1, 2, 3, 4, 5, 6, 7, 8, 9, 10, 11, 12, 13, 14, 31, 32, 63, 64, 255, 256, 65_535];

/// One place of a list changed at random; some text may still yield it.
pub fn damage(random: &mut Random, list: &mut Vec<u16>) {
    if list.len() < 3 {
        list.push(random.below(random.kinds.greatest() as usize + 2) as u16);
        return;
    }
    let (place, node) = (random.below(list.len()), random.below(list.len() / 3));
    match random.weighted(&[25, 15, 10, 10, 10, 10, 10, 5, 5]) {
        0 => list[place] = list[place].saturating_add_signed(random.pick(&[1, -1])),
        1 => list[place] = random.pick(random.kinds.choose(&FIRST_NUMBERS[..], &NUMBERS)),
        2 => list.swap(3 * node + 1, 3 * node + 2),
        3 => list[3 * node + 2] = list[3 * node + 1],
        4 => drop(list.splice(3 * node..3 * node, [0, 0, 0])),
        5 => drop(list.drain(3 * node..3 * node + 3)),
        6 => list[3 * node..].rotate_left(3),
        7 => drop(list.pop()),
        _ => list.push(random.below(3) as u16),
    }
}
