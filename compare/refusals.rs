//! The refusal table: each row is one test by its number, and the lowest number whose test holds is given.

use crate::model::Model;
use crate::question::Question;

/// An atom that no node names: after all other refusals of judging.
pub const UNNAMED: u16 = 22;

type Test<'a> = (u16, Box<dyn Fn() -> bool + 'a>);

fn lowest(tests: Vec<Test>) -> Option<u16> {
    tests.iter().filter(|(_, holds)| holds()).map(|(number, _)| *number).min()
}

/// Tests 1 and 6 to 9, which judging and the path calls share.
fn table_tests<'a>(states: usize, transitions: &'a [u16]) -> Vec<Test<'a>> {
    let pairs = move || transitions.chunks_exact(2);
    let count = transitions.len();
    vec![
        (1, Box::new(move || states == 0 || states > 256)),
        (6, Box::new(move || count % 2 == 1 || count == 0 || count > 2048)),
        (7, Box::new(move || transitions.iter().any(|&end| end as usize >= states))),
        (8, Box::new(move || pairs().zip(pairs().skip(1)).any(|(one, next)| one >= next))),
        (9, Box::new(move || (0..states).any(|s| !pairs().any(|pair| pair[0] as usize == s)))),
    ]
}

/// Refusals 1 to 13 and 22 of judging with a verdict space of `space` bytes.
pub fn of_judging(model: &Model, space: usize) -> Option<u16> {
    let (states, atoms) = (model.states, model.atoms);
    let (labels, initial, nodes) = (&model.labels, &model.initial, &model.nodes);
    let count = nodes.len();
    let mut tests = table_tests(states, &model.transitions);
    tests.push((2, Box::new(move || atoms > 32)));
    tests.push((3, Box::new(move || labels.len() != states * atoms)));
    tests.push((4, Box::new(move || labels.iter().any(|&label| label > 2))));
    tests.push((5, Box::new(move || initial.len() != states)));
    tests.push((5, Box::new(move || initial.iter().any(|&entry| entry > 1))));
    tests.push((5, Box::new(move || !initial.contains(&1))));
    tests.push((10, Box::new(move || count == 0 || count > 192 || count % 3 != 0)));
    tests.push((11, Box::new(move || nodes.chunks_exact(3).any(|node| node[0] > 13))));
    tests.push((
        12,
        Box::new(move || nodes.chunks_exact(3).enumerate().any(|(place, node)| bad_operands(place, node, atoms))),
    ));
    tests.push((13, Box::new(move || space < count / 3 * states)));
    tests.push((UNNAMED, Box::new(move || !model.names_every_atom())));
    lowest(tests)
}

/// An operand not earlier, an atom that is none, an unused number not 0.
fn bad_operands(place: usize, node: &[u16], atoms: usize) -> bool {
    let (left, right) = (node[1] as usize, node[2] as usize);
    match node[0] {
        0 => left != 0 || right != 0,
        1 => left >= atoms || right != 0,
        2 | 4 | 9..=13 => left >= place || right != 0,
        3 | 5..=8 => left >= place || right >= place,
        _ => false,
    }
}

/// Refusals 1, 6 to 9, 14, 15 of the path calls; only First lends a start.
pub fn of_question(question: &Question, start: Option<u16>) -> Option<u16> {
    let states = question.states;
    let bad_row = move |row: &[u8]| row.len() != states || row.iter().any(|&value| value > 2);
    let mut tests = table_tests(states, &question.transitions);
    tests.push((14, Box::new(move || bad_row(&question.left) || bad_row(&question.right))));
    tests.push((15, Box::new(move || question.level != 1 && question.level != 2)));
    tests.push((15, Box::new(move || start.is_some_and(|start| start as usize >= states))));
    lowest(tests)
}
