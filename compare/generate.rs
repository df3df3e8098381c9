//! The mixture of models and path questions, by their number modulo 100:
//!    0 to 37  accepted models
//!   38 to 45  models whose tables are refused by one cause (5, 7, 8, 9, 11, 12 in turn)
//!   46 to 48  texts with one count out of its range (1, 2, 6, 10 in turn)
//!   49 to 54  texts with one break of form (19)
//!   55 to 57  texts with several causes at once
//!   58 to 65  texts damaged in one or two places
//!   66 to 78  First and then every next path
//!   79 to 86  Next
//!   87 to 93  Check
//!   94 to 96  path questions refused by one cause (1, 6, 7, 8, 9, 14, 15 in turn, the three calls in turn)
//!   97 and 98 path questions with several causes at once
//!   99        at a limit, the limits in turn; about one case in 200 is large

use crate::answers;
use crate::kinds::Kinds;
use crate::limits::{self, model_case};
use crate::model::{text_of, Model};
use crate::question::{Asking, Question};
use crate::random::Random;
use crate::refusals::UNNAMED;
use crate::{askings, breaks, formula, judge, misasked, models, naming, pictures, question, reader, readings, spoiled};

/// A fresh case: of every nine four are of the mixture above, two about formulas, one about measurements, one about
/// atoms that are named or not, and one about pictures.
pub fn mixed(seed: u64, number: usize) -> Vec<u8> {
    let turn = number / 9;
    match number % 9 {
        place @ 0..=3 => case(Kinds::All, seed, turn * 4 + place),
        place @ 4..=5 => formula::mixture::case(Kinds::All, seed, turn * 2 + place - 4),
        6 => readings::mixture::case(seed, turn),
        7 => naming::mixture::case(seed, turn),
        _ => pictures::mixture::fresh(seed, turn),
    }
}

/// Case number `number` of a seed; a model that is refused for an unnamed atom alone is drawn again.
pub fn case(kinds: Kinds, seed: u64, number: usize) -> Vec<u8> {
    drawn(Random::of_case(seed, number as u64).drawing(kinds), number)
}

/// What the mixture has at this number, whatever the random numbers are.
pub fn drawn(mut random: Random, number: usize) -> Vec<u8> {
    loop {
        let case = draw(&mut random, number);
        if !refused_for_unnamed_atom(random.kinds, &case) {
            return case;
        }
    }
}

/// A model with a kind beyond those that are drawn counts as refused for that, as it was when it was stored.
fn refused_for_unnamed_atom(kinds: Kinds, case: &[u8]) -> bool {
    let Some(Ok(model)) = case.strip_prefix(b"M\n").map(reader::read) else {
        return false;
    };
    kinds.hold(&model.nodes) && judge::judge_whole(&model).err() == Some(UNNAMED)
}

fn draw(random: &mut Random, number: usize) -> Vec<u8> {
    let turn = number / 100;
    match number % 100 {
        0..=37 => model_case(models::any(random).text()),
        place @ 38..=45 => refused_tables(random, spoiled::CAUSES[(turn * 8 + place) % 6]),
        place @ 46..=48 => refused_count(random, [1, 2, 6, 10][(turn * 3 + place) % 4]),
        49..=54 => broken_form(random),
        55..=57 => several_causes(random),
        58..=65 => damaged(random),
        66..=78 => asked(askings::first(random)),
        79..=86 => asked(askings::next(random)),
        87..=93 => asked(askings::check(random)),
        place @ 94..=96 => refused_question(random, turn * 3 + place),
        97 | 98 => asked(misasked::several(random)),
        _ => limits::case(random, turn % limits::FAMILIES),
    }
}

fn asked((question, asking): (Question, Asking)) -> Vec<u8> {
    question::write(&question, &asking)
}

/// Whoever wrote a generator with one cause in mind must get that number, else the generator is wrong.
pub fn sure(case: Vec<u8>, number: u16) -> Vec<u8> {
    assert_eq!(answers::answer(&case), format!("answer={number}\n"), "{}", String::from_utf8_lossy(&case));
    case
}

fn refused_tables(random: &mut Random, cause: u16) -> Vec<u8> {
    let mut model = models::small(random);
    spoiled::spoil(random, &mut model, cause);
    if random.kinds.lifted(cause) {
        return model_case(model.text());
    }
    sure(model_case(model.text()), cause)
}

fn refused_count(random: &mut Random, cause: u16) -> Vec<u8> {
    let mut lines = models::small(random).lines();
    count_out_of_range(random, &mut lines, cause);
    sure(model_case(text_of(&lines)), cause)
}

/// A count that is just or far out of its range; half of the time the text ends there.
pub fn count_out_of_range(random: &mut Random, lines: &mut Vec<String>, cause: u16) {
    let (key, wrong): (&str, &[usize]) = match cause {
        1 => ("states=", &[0, 257, 65_535]),
        2 => ("atoms=", &[33, 34, 65_535]),
        6 => ("edges=", &[0, 1025, 65_535]),
        _ => ("nodes=", &[0, 65, 65_535]),
    };
    let Some(place) = lines.iter().position(|line| line.starts_with(key)) else {
        return;
    };
    lines[place] = format!("{key}{}", random.pick(wrong));
    if random.chance(50) {
        lines.truncate(place + 1);
    }
}

fn broken_form(random: &mut Random) -> Vec<u8> {
    let lines = models::small(random).lines();
    sure(model_case(breaks::break_form(random, lines)), 19)
}

/// Several causes in the tables, sometimes with counts out of range and breaks of form in the text too.
fn several_causes(random: &mut Random) -> Vec<u8> {
    let mut model = models::small(random);
    for _ in 0..random.between(2, 4) {
        let cause = random.pick(&spoiled::CAUSES);
        spoiled::spoil(random, &mut model, cause);
    }
    let mut lines = model.lines();
    for _ in 0..random.pick(&[0, 0, 1, 2]) {
        let cause = random.pick(&[1, 2, 6, 10]);
        count_out_of_range(random, &mut lines, cause);
    }
    let mut text = text_of(&lines);
    if random.chance(25) {
        breaks::damage(random, &mut text);
    }
    model_case(text)
}

fn damaged(random: &mut Random) -> Vec<u8> {
    let model: Model = if random.chance(70) { models::small(random) } else { models::any(random) };
    let mut text = model.text();
    for _ in 0..random.pick(&[1, 1, 1, 2]) {
        breaks::damage(random, &mut text);
    }
    model_case(text)
}

/// Seven causes and three calls: counting on through both meets every pair of them.
fn refused_question(random: &mut Random, turn: usize) -> Vec<u8> {
    let cause = misasked::CAUSES[turn % 7];
    let (question, asking) = misasked::alone(random, cause, turn % 3);
    sure(question::write(&question, &asking), cause)
}
