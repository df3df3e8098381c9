//! The stored cases about pictures: graphs drawn by hand, every row of two states, the rooms, every short list, lists
//! that are wrong in one way, the refusals and the edges.

use super::asking::{tables, write, Asking, Ending};
use super::{edges, refused};
use crate::question::Question;
use Ending::{Back, Falls};

pub fn cases() -> Vec<Vec<u8>> {
    [by_hand(), every_row(), rooms(), short_lists(), lists(), refused::listed(), edges::listed()].concat()
}

/// Tables whose rows are written in the letters of verdicts.
pub fn drawn(transitions: &[u16], left: &str, right: &str) -> Question {
    let value = |letter: char| "FUT".find(letter).unwrap() as u8;
    let row = |letters: &str| letters.chars().map(value).collect();
    tables(left.len(), transitions.to_vec(), row(left), row(right))
}

/// One state that stays; a chain whose last state stays; a ring; a way into a loop; two ways to one end, one longer.
pub const ALONE: [u16; 2] = [0, 0];
pub const CHAIN: [u16; 8] = [0, 1, 1, 2, 2, 3, 3, 3];
pub const RING: [u16; 8] = [0, 1, 1, 2, 2, 3, 3, 0];
pub const LOOP: [u16; 8] = [0, 1, 1, 2, 2, 3, 3, 1];
pub const TWO_WAYS: [u16; 12] = [0, 1, 0, 2, 1, 4, 2, 3, 3, 4, 4, 4];

const BY_HAND: [(&[u16], &str, &str); 38] = [
    (&ALONE, "T", "F"),
    (&ALONE, "U", "F"),
    (&ALONE, "F", "F"),
    (&ALONE, "F", "U"),
    (&ALONE, "T", "U"),
    (&ALONE, "F", "T"),
    (&CHAIN, "TTTF", "FFFF"),
    (&CHAIN, "UUUF", "FFFF"),
    (&CHAIN, "TTTT", "FFFF"),
    (&CHAIN, "TTTU", "FFFF"),
    (&CHAIN, "FTTT", "FFFF"),
    (&CHAIN, "TFTT", "FFFT"),
    (&CHAIN, "TTFT", "FFFT"),
    (&CHAIN, "TTFT", "FFUT"),
    (&CHAIN, "TTFT", "FUFT"),
    (&CHAIN, "TTUT", "FFFT"),
    (&CHAIN, "TTTT", "FFFT"),
    (&CHAIN, "TTTT", "FFFU"),
    (&CHAIN, "TTTF", "FFFU"),
    (&CHAIN, "UFTF", "TFFF"),
    (&RING, "TTTT", "FFFF"),
    (&RING, "UUUU", "FFFF"),
    (&RING, "TTTT", "FFUF"),
    (&RING, "TTTT", "FFTF"),
    (&RING, "TUTT", "FFTF"),
    (&RING, "TFTT", "FFTF"),
    (&LOOP, "TTTT", "FFFF"),
    (&LOOP, "TTTT", "FFFU"),
    (&LOOP, "TTTT", "FFFT"),
    (&LOOP, "TTTT", "TFFF"),
    (&LOOP, "FTTT", "UFFF"),
    (&TWO_WAYS, "TTTTF", "FFFFF"),
    (&TWO_WAYS, "TTTTF", "FUFFF"),
    (&TWO_WAYS, "TTTTF", "FFFUF"),
    (&TWO_WAYS, "TTTTF", "FUUFF"),
    (&TWO_WAYS, "TTTTF", "FTFTF"),
    (&TWO_WAYS, "TTTTU", "FFFFT"),
    (&TWO_WAYS, "TTUFT", "FFFFT"),
];

fn word(question: &Question, start: u16, room: usize) -> Vec<u8> {
    write(question, &Asking::Word { start, room })
}

fn check(question: &Question, list: &[u16], ending: Ending) -> Vec<u8> {
    write(question, &Asking::Check { list: list.to_vec(), ending })
}

/// From the first state with room for each state; from the last with more.
fn by_hand() -> Vec<Vec<u8>> {
    let asked = |(transitions, left, right): (&[u16], &str, &str)| {
        let question = drawn(transitions, left, right);
        let states = question.states;
        [word(&question, 0, states), word(&question, states as u16 - 1, states + 1)]
    };
    BY_HAND.into_iter().flat_map(asked).collect()
}

/// Two states, of which the first stays or goes on and the second goes back.
fn every_row() -> Vec<Vec<u8>> {
    let values = |number: usize| vec![(number % 3) as u8, (number / 3 % 3) as u8];
    let asked = |number: usize| word(&tables(2, vec![0, 0, 0, 1, 1, 0], values(number), values(number / 9)), 1, 2);
    (0..81).map(asked).collect()
}

/// A picture of one entry needs as much room as any; where there is none, no room is needed.
fn rooms() -> Vec<Vec<u8>> {
    let questions = [
        drawn(&CHAIN, "FTTT", "FFFF"),
        drawn(&RING, "TTTT", "FFFF"),
        drawn(&CHAIN, "TTTT", "FFFU"),
        drawn(&CHAIN, "TTTT", "FFFT"),
    ];
    let asked = |question: &Question| [0, 1, 3, 6, 300, 65_535].map(|room| word(question, 0, room));
    let one = drawn(&ALONE, "T", "F");
    questions.iter().flat_map(asked).chain([word(&one, 0, 0), word(&one, 1, 0)]).collect()
}

/// Every list of up to two entries over three numbers, of which two are states, with every ending near it.
fn short_lists() -> Vec<Vec<u8>> {
    let question = drawn(&[0, 0, 0, 1, 1, 0], "TF", "FF");
    let one = (0..3).map(|state| vec![state]);
    let two = (0..9).map(|number| vec![number % 3, number / 3]);
    let endings = [0, 1, 2].map(Ending::Back).into_iter().chain([Ending::Falls]);
    let lists = [vec![]].into_iter().chain(one).chain(two);
    lists.flat_map(|list| endings.clone().map(|ending| check(&question, &list, ending)).collect::<Vec<_>>()).collect()
}

/// A graph with its rows, a list and its ending: pictures, and lists that are wrong in one way.
#[rustfmt::skip]
const LISTS: [(&[u16], &str, &str, &[u16], Ending); 46] = [
    (&CHAIN, "TTTF", "FFFF", &[0, 1, 2, 3], Falls),
    (&CHAIN, "TTTF", "FFFF", &[0, 1, 2, 3], Back(3)),
    (&CHAIN, "TTTF", "FFFF", &[3], Falls),
    (&CHAIN, "TTTF", "FFFF", &[2, 3, 3, 3, 3, 3, 3], Falls),
    (&CHAIN, "TTTF", "FFFF", &[2, 3, 3, 3, 3, 3, 3], Back(2)),
    (&CHAIN, "TTTF", "FFFF", &[], Falls), // empty
    (&CHAIN, "TTTF", "FFFF", &[], Back(0)),
    (&CHAIN, "TTTF", "FFFF", &[0, 1, 2], Falls), // the left part holds
    (&CHAIN, "TTTF", "FFFF", &[0, 1, 2, 3], Back(2)), // no transition to that place
    (&CHAIN, "TTTF", "FFFF", &[0, 1, 2, 3], Back(4)), // no place
    (&CHAIN, "TTTF", "FFFF", &[0, 1, 2, 3], Back(65_535)),
    (&CHAIN, "TTTF", "FFFF", &[0, 2, 3], Falls), // not joined
    (&CHAIN, "TTTF", "FFFF", &[0, 0, 1, 2, 3], Falls),
    (&CHAIN, "TTTF", "FFFF", &[3, 2], Back(0)),
    (&CHAIN, "TTTF", "FFFF", &[4], Falls), // no state
    (&CHAIN, "TTTF", "FFFF", &[0, 1, 2, 4], Falls),
    (&CHAIN, "TTTF", "FFFF", &[65_535, 1, 2, 3], Falls),
    (&CHAIN, "TTTF", "FFFF", &[0, 65_535, 2, 3], Back(3)),
    (&CHAIN, "TTTU", "FFFF", &[0, 1, 2, 3], Falls), // the left part unknown
    (&CHAIN, "TTTU", "FFFF", &[0, 1, 2, 3], Back(3)),
    (&CHAIN, "FFFF", "FFFF", &[0, 1, 2, 3], Falls),
    (&CHAIN, "TTTF", "UFFF", &[0, 1, 2, 3], Falls), // the right part unknown at the first, and so on
    (&CHAIN, "TTTF", "FUFF", &[0, 1, 2, 3], Falls),
    (&CHAIN, "TTTF", "FFFU", &[0, 1, 2, 3], Falls),
    (&CHAIN, "TTTF", "FFFU", &[0, 1, 2, 3], Back(3)),
    (&CHAIN, "TTTF", "FFTF", &[0, 1, 2, 3], Falls), // the right part true
    (&CHAIN, "TTTF", "TFFF", &[1, 2, 3], Falls), // another start, and a picture of it
    (&RING, "TTTT", "FFFF", &[0, 1, 2, 3], Back(0)),
    (&RING, "TTTT", "FFFF", &[2, 3, 0, 1], Back(0)),
    (&RING, "TTTT", "FFFF", &[0, 1, 2, 3], Falls),
    (&RING, "TTTT", "FFFF", &[0, 1, 2, 3], Back(1)),
    (&RING, "TTTT", "FFFF", &[0, 1, 2], Back(0)),
    (&RING, "TTTT", "FFFF", &[0, 1, 2, 3, 0], Back(1)), // longer than there are states
    (&RING, "TTTT", "FFFF", &[0, 1, 2, 3, 0, 1, 2, 3, 0], Back(5)),
    (&RING, "TTTT", "FFFF", &[0, 1, 2, 3, 0, 1, 2, 3, 0], Back(4)),
    (&RING, "TTTT", "FFFF", &[0, 1, 2, 3, 0, 1, 2, 3, 0], Back(9)),
    (&RING, "TTTT", "FFFU", &[0, 1, 2, 3], Back(0)),
    (&LOOP, "TTTT", "FFFF", &[0, 1, 2, 3], Back(1)),
    (&LOOP, "TTTT", "FFFF", &[0, 1, 2, 3], Back(0)),
    (&LOOP, "TTTT", "FFFF", &[0, 1, 2, 3, 1], Back(2)),
    (&LOOP, "TTTT", "FFFF", &[3, 1, 2], Back(0)),
    (&TWO_WAYS, "TTTTF", "FUFFF", &[0, 2, 3, 4], Falls),
    (&TWO_WAYS, "TTTTF", "FUFFF", &[0, 1, 4], Falls),
    (&ALONE, "T", "F", &[0], Back(0)),
    (&ALONE, "F", "F", &[0], Falls),
    (&ALONE, "U", "U", &[0], Back(0)),
];

fn lists() -> Vec<Vec<u8>> {
    let asked = |(transitions, left, right, list, ending): (&[u16], &str, &str, &[u16], Ending)| {
        check(&drawn(transitions, left, right), list, ending)
    };
    LISTS.into_iter().map(asked).collect()
}
