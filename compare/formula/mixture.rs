//! Random cases about formulas, by their number modulo 20:
//!    0 to 2   R, accepted
//!    3 to 6   R, damaged in one or two places
//!    7 and 8  P, accepted
//!    9 to 11  P, damaged in one or two places
//!   12 and 13 K, parts of lists that are whole, shared or damaged
//!   14 to 16  Q, accepted
//!   17        Q refused by one cause, the causes in turn
//!   18        Q with several causes
//!   19        R, P or K at a limit

use super::answering::{part_case, printing_case, reading_case};
use super::{damaging, edges, growing, judgings, lists, reading};
use crate::kinds::Kinds;
use crate::models;
use crate::random::Random;

/// Far from every case number of the other mixture, so that no two cases share their random numbers.
const BEGIN: u64 = 1 << 32;

/// Case number `number` of a seed; a model that is refused for an atom that the formula leaves unnamed is drawn again.
pub fn case(kinds: Kinds, seed: u64, number: usize) -> Vec<u8> {
    drawn(Random::of_case(seed, BEGIN + number as u64).drawing(kinds), number)
}

/// What the mixture has at this number, whatever the random numbers are.
pub fn drawn(mut random: Random, number: usize) -> Vec<u8> {
    loop {
        let case = draw(&mut random, number);
        if case[0] != b'Q' || !judgings::leaves_atom_unnamed(random.kinds, &case) {
            return case;
        }
    }
}

fn draw(random: &mut Random, number: usize) -> Vec<u8> {
    match number % 20 {
        0..=2 => read(random, 0),
        3..=6 => {
            let places = random.pick(&[1, 1, 1, 2]);
            read(random, places)
        }
        7 | 8 => printed(random, 0),
        9..=11 => {
            let places = random.pick(&[1, 1, 1, 2]);
            printed(random, places)
        }
        12 | 13 => part(random),
        14..=16 => judgings::accepted(random),
        17 => judgings::refused(random, number / 20 % judgings::FAMILIES),
        18 => judgings::several(random),
        _ => at_limit(random),
    }
}

/// Mostly exactly enough room, sometimes more, seldom too little.
fn node_room(random: &mut Random) -> usize {
    match random.weighted(&[70, 25, 5]) {
        0 => 192,
        1 => random.between(193, 300),
        _ => random.pick(&[0, 1, 3, 189, 190, 191]),
    }
}

fn text_room(random: &mut Random) -> usize {
    match random.weighted(&[70, 25, 5]) {
        0 => 4_096,
        1 => random.between(4_097, 4_200),
        _ => random.pick(&[0, 1, 64, 4_000, 4_094, 4_095]),
    }
}

fn read(random: &mut Random, places: usize) -> Vec<u8> {
    let mut text = growing::any(random).text().into_bytes();
    (0..places).for_each(|_| damaging::damage(random, &mut text));
    reading_case(node_room(random), &text)
}

fn printed(random: &mut Random, places: usize) -> Vec<u8> {
    let mut list = growing::any(random).nodes();
    (0..places).for_each(|_| lists::damage(random, &mut list));
    printing_case(text_room(random), &list)
}

/// A formula's list between others, or a list with shared nodes as models have them; any node is asked for.
fn part(random: &mut Random) -> Vec<u8> {
    let mut list = Vec::new();
    if random.chance(70) {
        for _ in 0..random.between(1, 3) {
            let nodes = random.between(1, 15);
            let formula = growing::of_size(random, nodes);
            list.extend(formula.nodes_from(list.len() / 3));
        }
    } else {
        let (atoms, nodes) = (random.between(1, 3), random.between(3, 12));
        list = models::formulas(random, atoms, nodes);
    }
    if random.chance(40) {
        lists::damage(random, &mut list);
    }
    list.extend((0..random.below(3)).map(|number| number as u16));
    let last = (list.len() / 3).max(1) - 1;
    let node = match random.weighted(&[20, 75, 5]) {
        0 => last,
        1 => random.below(last + 1),
        _ => last + random.between(1, 2),
    };
    part_case(text_room(random), node, &list)
}

/// A long text, or about as many nodes as are allowed; lists longer than 64 nodes hold parts that are not asked for.
fn at_limit(random: &mut Random) -> Vec<u8> {
    let nodes = reading::MOST_NODES + random.pick(&[0, 0, 1, 1, 2]) - random.below(2);
    let list = growing::of_size(random, nodes).nodes();
    let room = node_room(random);
    match random.below(6) {
        0 => {
            let texts = edges::long(random.kinds);
            reading_case(room, &texts[random.below(texts.len())])
        }
        1 => {
            let texts = edges::many_nodes(random.kinds);
            reading_case(room, &texts[random.below(texts.len())])
        }
        2 => reading_case(room, growing::of_size(random, nodes).text().as_bytes()),
        3 => printing_case(text_room(random), &list),
        4 => part_case(text_room(random), nodes - 1, &list),
        _ => part_case(text_room(random), random.below(nodes), &list),
    }
}
