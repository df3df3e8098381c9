//! Pictures at the edges of what is allowed: the most states, the most transitions, the longest lists.

use super::asking::{tables, write, Asking, Ending};
use super::lists;
use crate::askings::row;
use crate::graphs::{self, Graph, MOST_TRANSITIONS};
use crate::limits::spread;
use crate::question::Question;
use crate::random::Random;

const MOST_STATES: usize = 256;

/// The most entries that a frame's list has.
const MOST_ENTRIES: usize = 300;

pub const FAMILIES: usize = 6;

/// One case of a family; the families are taken in turn.
pub fn case(random: &mut Random, family: usize) -> Vec<u8> {
    match family {
        0 => crowded(random),
        1 => long_word(random, graphs::chain),
        2 => long_word(random, graphs::ring),
        3 => long_check(random),
        4 => longest_list(random),
        _ => many_transitions(random),
    }
}

pub fn listed() -> Vec<Vec<u8>> {
    [words(), whole_lists(), twice_round()].concat()
}

/// Each state leads to the next ones, the last to the first ones; the right part is false at all of them.
pub fn ring(states: usize, each: usize) -> Question {
    let mut pairs: Vec<[usize; 2]> =
        (0..states).flat_map(|from| (1..=each).map(move |step| [from, (from + step) % states])).collect();
    pairs.sort();
    let transitions = pairs.concat().iter().map(|&state| state as u16).collect();
    tables(states, transitions, vec![2; states], vec![0; states])
}

/// Each state leads to the next one, and at the last the left part falls.
pub fn chain(states: usize) -> Question {
    let mut question = ring(states, 1);
    question.transitions[2 * states - 1] = states as u16 - 1;
    question.left[states - 1] = 0;
    question
}

/// The longest pictures, with exactly enough room, one less and more; and none, by a value that is unknown.
fn words() -> Vec<Vec<u8>> {
    let unknown_at = |mut question: Question, state: usize| {
        question.right[state] = 1;
        question
    };
    let falling = [chain(255), chain(MOST_STATES), ring(255, 1), ring(MOST_STATES, 1), ring(MOST_STATES, 4)];
    let none = [unknown_at(chain(MOST_STATES), 255), unknown_at(ring(MOST_STATES, 1), 200)];
    let rooms = |question: &Question| {
        let room = |room: usize| write(question, &Asking::Word { start: 0, room });
        [question.states - 1, question.states, MOST_ENTRIES].map(room)
    };
    let from_the_last = [chain(MOST_STATES), ring(MOST_STATES, 4), unknown_at(ring(MOST_STATES, 4), 2)];
    let last = from_the_last.map(|question| write(&question, &Asking::Word { start: 255, room: MOST_STATES }));
    falling.iter().chain(&none).flat_map(rooms).chain(last).collect()
}

/// Every state in turn, with each ending that is near to the right one.
fn whole_lists() -> Vec<Vec<u8>> {
    let whole: Vec<u16> = (0..MOST_STATES as u16).collect();
    let endings = [0, 1, 2, 254, 255, 256, 65_535].map(Ending::Back).into_iter().chain([Ending::Falls]);
    let asked = endings.map(|ending| Asking::Check { list: whole.clone(), ending });
    let questions = [chain(MOST_STATES), ring(MOST_STATES, 1), ring(MOST_STATES, 4)];
    questions.iter().flat_map(|question| asked.clone().map(move |asking| write(question, &asking))).collect()
}

/// Longer than there are states, and a picture still.
fn twice_round() -> Vec<Vec<u8>> {
    let list = round(MOST_ENTRIES);
    let asked = |place: usize| Asking::Check { list: list.clone(), ending: Ending::Back(place) };
    let ending = |place: usize| write(&ring(MOST_STATES, 1), &asked(place));
    [43, 44, 45, 255, 256, 299, 300].map(ending).to_vec()
}

fn round(entries: usize) -> Vec<u16> {
    (0..entries).map(|place| (place % MOST_STATES) as u16).collect()
}

/// All the transitions that there can be, the right part seldom true.
fn crowded(random: &mut Random) -> Vec<u8> {
    let transitions = spread(random, MOST_STATES, MOST_TRANSITIONS);
    let lefts = random.pick(&[[0, 1, 5], [1, 5, 50], [0, 0, 1]]);
    let rights = random.pick(&[[5, 1, 1], [1, 2, 2], [1, 0, 0], [1, 1, 1]]);
    let (left, right) = (row(random, MOST_STATES, &lefts), row(random, MOST_STATES, &rights));
    let (start, room) = (random.below(MOST_STATES) as u16, random.pick(&[255, 256, 300]));
    write(&tables(MOST_STATES, transitions, left, right), &Asking::Word { start, room })
}

/// A long graph with its states numbered anew, from its first state; sometimes something on the way is unknown.
fn long(random: &mut Random, shape: fn(&mut Random, usize) -> Graph) -> (Question, u16) {
    let states = random.pick(&[254, 255, MOST_STATES]);
    let mut graph = shape(random, states);
    let order = graph.renumbered(random);
    let mut question = tables(states, graph.transitions(), vec![2; states], vec![0; states]);
    question.left[order[states - 1]] = random.below(3) as u8;
    for _ in 0..random.pick(&[0, 0, 1, 2]) {
        question.right[random.below(states)] = random.below(2) as u8;
    }
    (question, order[0] as u16)
}

fn long_word(random: &mut Random, shape: fn(&mut Random, usize) -> Graph) -> Vec<u8> {
    let (question, start) = long(random, shape);
    let room = random.pick(&[question.states - 1, question.states, question.states, MOST_ENTRIES]);
    write(&question, &Asking::Word { start, room })
}

/// A long picture, half of the time with an entry that is no state or another state.
fn long_check(random: &mut Random) -> Vec<u8> {
    let shape = random.pick(&[graphs::chain, graphs::ring]);
    let (question, start) = long(random, shape);
    let (mut list, ending) = lists::picture(random, &question, start);
    let place = random.below(list.len());
    match random.below(4) {
        0 => list = lists::with_foreign_entry(random, list, question.states),
        1 => list[place] = random.below(question.states) as u16,
        _ => {}
    }
    write(&question, &Asking::Check { list, ending })
}

/// As many entries as a frame can hold, or one less, round a ring; half of the time one of them is another.
fn longest_list(random: &mut Random) -> Vec<u8> {
    let entries = random.pick(&[MOST_ENTRIES - 1, MOST_ENTRIES]);
    let mut list = round(entries);
    let place = entries - MOST_STATES + random.pick(&[0, 0, 0, 1]);
    if random.chance(50) {
        list[random.below(entries)] = random.pick(&[0, 7, 256, 65_535]);
    }
    write(&ring(MOST_STATES, 1), &Asking::Check { list, ending: Ending::Back(place) })
}

/// A transition list about as long as can be; above 2,048 numbers or with an odd one it is refused.
fn many_transitions(random: &mut Random) -> Vec<u8> {
    let (states, length): (usize, usize) = (random.between(46, 60), random.pick(&[2047, 2048, 2048, 2049, 2050]));
    let mut transitions = spread(random, states, length.div_ceil(2));
    transitions.truncate(length);
    let question = tables(states, transitions, row(random, states, &[1, 4, 4]), row(random, states, &[4, 1, 1]));
    write(&question, &Asking::Word { start: random.below(states) as u16, room: states })
}
