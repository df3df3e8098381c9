//! Judging a model: the refusals, then the rows by both ways, which must agree wherever both are possible.

use crate::model::Model;
use crate::{labelling, refusals, walks};

pub struct Judged {
    pub rows: Vec<Vec<u8>>,
    pub verdict: u8,
    /// Whether the walks were few enough to be listed.
    pub by_walks: bool,
}

pub fn judge(model: &Model, space: usize) -> Result<Judged, u16> {
    if let Some(refusal) = refusals::of_judging(model, space) {
        return Err(refusal);
    }
    let rows = labelling::rows(model);
    let literal = walks::rows(model);
    if let Some(literal) = &literal {
        assert_eq!(literal, &rows, "the two ways of judging differ on {model:?}");
    }
    let verdict = model_verdict(rows.last().unwrap(), &model.initial);
    Ok(Judged { rows, verdict, by_walks: literal.is_some() })
}

/// Judging with exactly the verdict space that the rows need, so 13 cannot happen.
pub fn judge_whole(model: &Model) -> Result<Judged, u16> {
    judge(model, model.nodes.len() / 3 * model.states)
}

/// The smallest of the values at the initial states, of which an accepted model has one.
fn model_verdict(row: &[u8], initial: &[u8]) -> u8 {
    let at_initial = row.iter().zip(initial).filter(|(_, &entry)| entry == 1);
    *at_initial.map(|(value, _)| value).min().unwrap()
}
