//! Formulas judged on models: accepted ones with every verdict, and each refusal.

use super::answering::judging_case;
use super::tree::{self, Formula};
use super::{damaging, growing, reading, wrong};
use crate::generate::{count_out_of_range, sure};
use crate::judge;
use crate::kinds::Kinds;
use crate::model::{text_of, Model};
use crate::random::Random;
use crate::refusals::UNNAMED;
use crate::{breaks, models, reader, spoiled};

/// A small model, few nodes of its own, and a formula that names all its atoms.
pub fn draw(random: &mut Random) -> (Model, Formula) {
    let states = if random.chance(90) { random.between(1, 7) } else { random.between(8, 40) };
    let atoms = if random.chance(90) { random.below(5) } else { random.between(5, 12) };
    let nodes = atoms.max(1) + random.below(2);
    (models::with_counts(random, states, atoms, nodes), growing::naming(random, atoms))
}

/// Of a few tries the first one whose verdict is the wanted one.
pub fn accepted(random: &mut Random) -> Vec<u8> {
    let wanted = random.below(3) as u8;
    let (mut model, mut formula) = draw(random);
    for _ in 0..5 {
        let judged = judge::judge_whole(&Model { nodes: formula.nodes(), ..model.clone() });
        if judged.unwrap().verdict == wanted {
            break;
        }
        (model, formula) = draw(random);
    }
    if random.chance(15) {
        // The model's own nodes are not used, so what is wrong with them is not seen.
        let cause = random.pick(&[11, 12]);
        spoiled::spoil(random, &mut model, cause);
    }
    judging_case(formula.text().as_bytes(), &model.text())
}

pub const FAMILIES: usize = 12;

/// One cause, which decides alone: the model's text, its tables, then the formula.
pub fn refused(random: &mut Random, family: usize) -> Vec<u8> {
    let (mut model, mut formula) = draw(random);
    let mut lines = model.lines();
    let text = formula.text().into_bytes();
    let (case, cause) = match family {
        0..=3 => {
            let cause = [1, 2, 6, 10][family];
            count_out_of_range(random, &mut lines, cause);
            (judging_case(&text, &text_of(&lines)), cause)
        }
        4 => (judging_case(&text, &breaks::break_form(random, lines)), 19),
        5..=8 => {
            let cause = [5, 7, 8, 9][family - 5];
            spoiled::spoil(random, &mut model, cause);
            (judging_case(&text, &model.text()), cause)
        }
        9 => {
            let beyond = random.between(model.atoms, reading::MOST_ATOMS as usize - 1);
            formula = formula.joined(random.below(tree::joints(random.kinds)), Formula::Atom(beyond as u16));
            (judging_case(formula.text().as_bytes(), &model.text()), 12)
        }
        10 => (judging_case(&wrong_text(random, text), &model.text()), 20),
        _ => {
            let nodes = reading::MOST_NODES + random.between(1, 20);
            (judging_case(growing::of_size(random, nodes).text().as_bytes(), &model.text()), 10)
        }
    };
    if random.kinds.lifted(cause) {
        return case;
    }
    sure(case, cause)
}

fn wrong_text(random: &mut Random, mut text: Vec<u8>) -> Vec<u8> {
    if random.chance(50) {
        text.push(random.pick(random.kinds.choose(&b" T)&!("[..], b" T)&!(|>")));
        return text;
    }
    let mut wrong = wrong::texts(random.kinds);
    wrong.retain(|text| !text.contains(&b'\n'));
    wrong.swap_remove(random.below(wrong.len()))
}

/// Model, tables and formula may each be wrong; which number comes first shows the order.
pub fn several(random: &mut Random) -> Vec<u8> {
    let (mut model, formula) = draw(random);
    for _ in 0..random.pick(&[0, 1, 1, 2]) {
        let cause = random.pick(&spoiled::CAUSES);
        spoiled::spoil(random, &mut model, cause);
    }
    let mut lines = model.lines();
    if random.chance(30) {
        let cause = random.pick(&[1, 2, 6, 10]);
        count_out_of_range(random, &mut lines, cause);
    }
    let (mut text, mut formula) = (text_of(&lines), formula.text().into_bytes());
    if random.chance(20) {
        breaks::damage(random, &mut text);
    }
    if random.chance(60) {
        damaging::damage(random, &mut formula);
    }
    formula.retain(|&byte| byte != b'\n');
    judging_case(&formula, &text)
}

/// Whether a case is refused for an atom of the model that the formula leaves unnamed, and for nothing else; a formula
/// with a kind beyond those that are drawn counts as refused for that, as it was when it was stored.
pub fn leaves_atom_unnamed(kinds: Kinds, case: &[u8]) -> bool {
    let mut lines = case.splitn(3, |&byte| byte == b'\n').skip(1);
    let (Some(formula), Some(text)) = (lines.next(), lines.next()) else {
        return false;
    };
    let (Ok(mut model), Ok(formula)) = (reader::read(text), reading::read(formula)) else {
        return false;
    };
    model.nodes = formula.nodes();
    kinds.hold(&model.nodes) && judge::judge_whole(&model).err() == Some(UNNAMED)
}
