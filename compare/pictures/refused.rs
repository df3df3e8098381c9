//! Questions about pictures that are refused: every cause alone, a lower one before a higher one, and any of them.

use super::asking::{tables, write, Asking, Ending};
use super::lists;
use crate::generate::sure;
use crate::limits::spread;
use crate::misasked::spoil_tables;
use crate::question::Question;
use crate::random::Random;

pub const CAUSES: [u16; 8] = [1, 6, 7, 8, 9, 14, 15, 16];

/// The first of them are those of the check, which lends neither a start nor a space.
pub const OF_CHECK: usize = 6;

pub fn listed() -> Vec<Vec<u8>> {
    [tables_alone(), starts_alone(), in_order(&CAUSES, false), in_order(&CAUSES[..OF_CHECK], true)].concat()
}

/// Three states in a ring, the right part false at all of them.
fn ring() -> Question {
    tables(3, vec![0, 1, 1, 2, 2, 0], vec![2; 3], vec![0; 3])
}

fn word() -> Asking {
    Asking::Word { start: 0, room: 3 }
}

fn whole_ring() -> Asking {
    Asking::Check { list: vec![0, 1, 2], ending: Ending::Back(0) }
}

/// Every way to have one cause in the tables, for both calls.
fn tables_alone() -> Vec<Vec<u8>> {
    let ways = [counts(), transitions(), rows()].concat();
    let both = |(question, cause): &(Question, u16)| {
        [word(), whole_ring()].map(|asking| sure(write(question, &asking), *cause))
    };
    ways.iter().flat_map(both).collect()
}

fn counts() -> Vec<(Question, u16)> {
    let wide: Vec<u16> = (0..257).flat_map(|state| [state, (state + 1) % 257]).collect();
    let no_state = |states: usize| (Question { states, ..ring() }, 1);
    let many = |count: usize, cut: usize| {
        let mut transitions = spread(&mut Random::of_case(1, count as u64), 33, count);
        transitions.truncate(2 * count - cut);
        (tables(33, transitions, vec![2; 33], vec![0; 33]), 6)
    };
    vec![
        (tables(257, wide, vec![2; 257], vec![0; 257]), 1),
        no_state(0),
        no_state(65_535),
        many(1_025, 0),
        many(1_025, 1),
        (Question { transitions: Vec::new(), ..ring() }, 6),
        (Question { transitions: vec![0, 1, 1, 2, 2], ..ring() }, 6),
        (Question { transitions: vec![0, 1, 1, 2, 2, 0, 0], ..ring() }, 6),
    ]
}

fn transitions() -> Vec<(Question, u16)> {
    let lists: [(&[u16], u16); 8] = [
        (&[0, 1, 1, 2, 2, 3], 7),
        (&[0, 1, 1, 2, 2, 0, 2, 65_535], 7),
        (&[0, 1, 1, 2, 2, 0, 3, 0], 7),
        (&[0, 1, 0, 1, 1, 2, 2, 0], 8),
        (&[0, 1, 2, 0, 1, 2], 8),
        (&[1, 2, 2, 0], 9),
        (&[0, 1, 2, 0], 9),
        (&[0, 1, 1, 2], 9),
    ];
    lists.map(|(list, cause)| (Question { transitions: list.to_vec(), ..ring() }, cause)).to_vec()
}

/// Too short, too long, empty, a value above 2: on the left and on the right.
fn rows() -> Vec<(Question, u16)> {
    let wrong: [&[u8]; 6] = [&[], &[0, 0], &[0, 0, 0, 0], &[3, 0, 0], &[0, 0, 3], &[0, 255, 0]];
    let lefts = wrong.map(|row| (Question { left: row.to_vec(), ..ring() }, 14));
    let rights = wrong.map(|row| (Question { right: row.to_vec(), ..ring() }, 14));
    [lefts, rights].concat()
}

fn starts_alone() -> Vec<Vec<u8>> {
    let asked = |start: u16| sure(write(&ring(), &Asking::Word { start, room: 3 }), 15);
    [3, 4, 256, 65_535].map(asked).to_vec()
}

/// Each of the causes with one higher behind it; then all at once.
fn in_order(causes: &[u16], check: bool) -> Vec<Vec<u8>> {
    let asking = || if check { whole_ring() } else { word() };
    let behind = |lowest: usize| (lowest + 1..causes.len()).map(move |higher| vec![causes[lowest], causes[higher]]);
    let sets = (0..causes.len()).flat_map(behind).chain([causes.to_vec()]);
    sets.map(|set| sure(with(&set, asking()), set[0])).collect()
}

/// A ring with these causes; the highest is brought in first, so that none undoes another.
fn with(causes: &[u16], mut asking: Asking) -> Vec<u8> {
    let mut question = ring();
    for &cause in causes.iter().rev() {
        bring(&mut question, &mut asking, cause);
    }
    write(&question, &asking)
}

fn bring(question: &mut Question, asking: &mut Asking, cause: u16) {
    let without_1 = |list: &[u16]| list.chunks(2).filter(|pair| pair[0] != 1).flatten().copied().collect();
    match (cause, asking) {
        (1, _) => question.states = 258,
        (6, _) => question.transitions.push(1),
        (7, _) => question.transitions.extend([2, 4]),
        (8, _) => drop(question.transitions.splice(0..0, [0, 1])),
        (9, _) => question.transitions = without_1(&question.transitions),
        (14, _) => question.right.push(2),
        (15, Asking::Word { start, .. }) => *start = 5,
        (16, Asking::Word { room, .. }) => *room = 1,
        (cause, asking) => panic!("{asking:?} is never refused with {cause}"),
    }
}

/// A random question with one cause, which decides alone.
pub fn alone(random: &mut Random, cause: u16, check: bool) -> Vec<u8> {
    let (mut question, mut asking) = ask(random, check);
    spoil(random, &mut question, &mut asking, cause);
    sure(write(&question, &asking), cause)
}

/// Either call with two to four causes; the lowest decides.
pub fn several(random: &mut Random) -> Vec<u8> {
    let check = random.chance(30);
    let (mut question, mut asking) = ask(random, check);
    for _ in 0..random.between(2, 4) {
        let cause = random.pick(if check { &CAUSES[..OF_CHECK] } else { &CAUSES });
        spoil(random, &mut question, &mut asking, cause);
    }
    write(&question, &asking)
}

/// A false question with room enough, or a list about it.
fn ask(random: &mut Random, check: bool) -> (Question, Asking) {
    let (question, start) = lists::false_question(random);
    let (list, ending) = lists::any_list(random, &question, start);
    let room = question.states;
    (question, if check { Asking::Check { list, ending } } else { Asking::Word { start, room } })
}

fn spoil(random: &mut Random, question: &mut Question, asking: &mut Asking, cause: u16) {
    let states = question.states.clamp(1, 256);
    match (cause, asking) {
        (15, Asking::Word { start, .. }) => *start = random.pick(&[states, states + 1, 65_535]) as u16,
        (16, Asking::Word { room, .. }) => *room = random.pick(&[0, states / 2, states - 1]),
        _ => spoil_tables(random, question, cause),
    }
}
