//! A formula judged on the tree itself, by listing walks as the rules word it; no node list is used.

use super::tree::{Formula, JOINTS, PREFIXES};
use crate::model::{successors, Model, TRUE};
use crate::walks;

/// The formula's row, or nothing where the walks are too many to list; only for models that are not refused.
pub fn row(model: &Model, formula: &Formula) -> Option<Vec<u8>> {
    let next = successors(model.states, &model.transitions);
    let walks = walks::listed(&next)?;
    Some(row_of(formula, model, &next, &walks))
}

fn row_of(formula: &Formula, model: &Model, next: &[Vec<usize>], walks: &[Vec<Vec<usize>>]) -> Vec<u8> {
    let of = |part: &Formula| row_of(part, model, next, walks);
    let all = 0..model.states;
    match formula {
        Formula::True => vec![TRUE; model.states],
        Formula::Atom(number) => all.map(|state| model.labels[state * model.atoms + *number as usize]).collect(),
        Formula::Prefixed(operator, operand) => {
            let values = of(operand);
            let after = |state: usize| next[state].iter().map(|&state| values[state]);
            let greatest = |state: usize| walks[state].iter().map(|walk| walks::greatest_value(walk, &values));
            let least = |state: usize| walks[state].iter().map(|walk| walks::least_value(walk, &values));
            match PREFIXES[*operator].1 {
                "!" => values.iter().map(|value| TRUE - value).collect(),
                "EX " => all.map(|state| after(state).max().unwrap()).collect(),
                "AX " => all.map(|state| after(state).min().unwrap()).collect(),
                "EF " => all.map(|state| greatest(state).max().unwrap()).collect(),
                "AF " => all.map(|state| greatest(state).min().unwrap()).collect(),
                "EG " => all.map(|state| least(state).max().unwrap()).collect(),
                _ => all.map(|state| least(state).min().unwrap()).collect(),
            }
        }
        Formula::Joined(operator, left, right) => {
            let (left, right) = (of(left), of(right));
            let values = |state: usize| walks[state].iter().map(|walk| walks::until_value(walk, &left, &right));
            let (_, first, middle) = JOINTS[*operator];
            match (first, middle) {
                (_, "&") => all.map(|state| left[state].min(right[state])).collect(),
                (_, "|") => all.map(|state| left[state].max(right[state])).collect(),
                (_, ">") => all.map(|state| right[state].max(TRUE - left[state])).collect(),
                ("E(", _) => all.map(|state| values(state).max().unwrap()).collect(),
                _ => all.map(|state| values(state).min().unwrap()).collect(),
            }
        }
    }
}
