//! Cases at the edges of what is allowed: the largest tables, one more than the largest, the longest texts.

use crate::graphs::{self, MOST_TRANSITIONS};
use crate::model::Model;
use crate::models;
use crate::paths;
use crate::question::{self, Asking, Question};
use crate::random::Random;
use crate::reader::MOST_BYTES;

pub const FAMILIES: usize = 19;

/// One case of a family; the families are taken in turn so that each edge comes up from both sides.
pub fn case(random: &mut Random, family: usize) -> Vec<u8> {
    match family {
        0 => model_case(wide(random, 256, 32, 64, MOST_TRANSITIONS).text()),
        1 => model_case(wide(random, 257, 3, 5, 600).text()),
        2 => model_case(wide(random, 5, 32, 40, 12).text()),
        3 => model_case(wide(random, 5, 33, 40, 12).text()),
        4 => model_case(wide(random, 33, 2, 6, MOST_TRANSITIONS).text()),
        5 => model_case(wide(random, 33, 2, 6, MOST_TRANSITIONS + 1).text()),
        6 => model_case(wide(random, 9, 4, 64, 20).text()),
        7 => model_case(wide(random, 9, 4, 65, 20).text()),
        8 => model_case(wide(random, 256, 1, 7, 256).text()),
        9 => model_case(longest_form(random).text()),
        10 => padded(random, MOST_BYTES),
        11 => padded(random, MOST_BYTES + 1),
        12 => long_path(random, true),
        13 => long_path(random, false),
        14 => many_transitions(random, &[2048]),
        15 => many_transitions(random, &[2047, 2049, 2050, 2100]),
        16 => wide_question(random),
        17 => long_list(random),
        _ => model_case(Vec::new()),
    }
}

pub fn model_case(text: Vec<u8>) -> Vec<u8> {
    [b"M\n".to_vec(), text].concat()
}

/// A model with exactly these counts, also ones that are too large; the transitions are spread evenly.
fn wide(random: &mut Random, states: usize, atoms: usize, nodes: usize, transitions: usize) -> Model {
    let mut model = models::with_counts(random, states, 0, 1);
    model.atoms = atoms;
    model.labels = (0..states * atoms).map(|_| random.below(3) as u8).collect();
    model.nodes = models::formulas(random, atoms, nodes);
    model.transitions = spread(random, states, transitions);
    model
}

/// Exactly so many transitions, one or more from each state, ends chosen at random.
pub fn spread(random: &mut Random, states: usize, count: usize) -> Vec<u16> {
    let mut list = Vec::new();
    for state in 0..states {
        let share = (state + 1) * count / states - state * count / states;
        let mut ends: Vec<u16> = (0..states as u16).collect();
        random.shuffle(&mut ends);
        ends.truncate(share);
        ends.sort();
        list.extend(ends.iter().flat_map(|&end| [state as u16, end]));
    }
    list
}

/// The longest text that keeps the form: every number has five digits, so judging refuses it.
fn longest_form(random: &mut Random) -> Model {
    let mut model = wide(random, 256, 32, 64, MOST_TRANSITIONS);
    let long = |_: &u16| 65_535;
    model.transitions = model.transitions.iter().map(long).collect();
    model.nodes = model.nodes.iter().map(long).collect();
    model
}

/// A text of exactly so many bytes: the beginning decides unless the text is too long.
fn padded(random: &mut Random, length: usize) -> Vec<u8> {
    let beginning =
        random.pick(&["states=0\n", "states=1\natoms=33\n", "states=1\natoms=0\ninit=1\nlabel=\nedges=0\n", ""]);
    let mut text = match random.chance(30) {
        true => models::small(random).text(),
        false => beginning.as_bytes().to_vec(),
    };
    let filling = random.pick(&[b'\n', b'x', b'0']);
    text.resize(length, filling);
    model_case(text)
}

/// A witness with as many entries as there are states, with exactly enough room or one less.
fn long_path(random: &mut Random, enough: bool) -> Vec<u8> {
    let states = random.pick(&[255, 256]);
    let graph = graphs::chain(random, states);
    let mut question =
        Question { states, level: 2, transitions: graph.transitions(), left: vec![2; states], right: vec![0; states] };
    question.right[states - 1] = 2;
    let room = if enough { states } else { states - 1 };
    question::write(&question, &Asking::First { start: 0, room })
}

/// A transition list of one of these lengths; above 2,048 numbers or with an odd one it is refused.
fn many_transitions(random: &mut Random, lengths: &[usize]) -> Vec<u8> {
    let (states, length) = (random.between(46, 60), random.pick(lengths));
    let mut transitions = spread(random, states, length.div_ceil(2));
    transitions.truncate(length);
    let (left, right) = (vec![2; states], vec![1; states]);
    let question = Question { states, level: 1, transitions, left, right };
    question::write(&question, &Asking::Next(vec![random.below(states) as u16]))
}

/// 256 states with all their transitions, from a start that has more than one shortest witness.
fn wide_question(random: &mut Random) -> Vec<u8> {
    let transitions = spread(random, 256, MOST_TRANSITIONS);
    let left = (0..256).map(|_| random.pick(&[2, 2, 2, 1, 0])).collect();
    let right = (0..256).map(|place| (place % 64 == 17) as u8 * 2).collect();
    let question = Question { states: 256, level: random.between(1, 2) as u8, transitions, left, right };
    let several = |&start: &u16| paths::in_order(&question, start, None, 2).len() == 2;
    let start = (random.below(128) as u16..256).find(several).unwrap_or(0);
    question::write(&question, &Asking::First { start, room: random.pick(&[256, 300]) })
}

/// Check on a list of 300 entries, longer than any shortest witness, joined or with one step that is not.
fn long_list(random: &mut Random) -> Vec<u8> {
    let states = 256;
    let transitions = (0..256u16).flat_map(|state| [state, (state + 1) % 256]).collect();
    let question = Question { states, level: 2, transitions, left: vec![2; states], right: vec![2; states] };
    let begin = random.below(256);
    let mut list: Vec<u16> = (0..300).map(|place| ((begin + place) % 256) as u16).collect();
    if random.chance(50) {
        list[random.below(300)] = random.pick(&[0, 7, 256, 65_535]);
    }
    question::write(&question, &Asking::Check(list))
}
