//! Whether a list with its ending is a picture, read off what a picture is; only for tables that are not refused.

use super::asking::Ending;
use crate::model::FALSE;
use crate::question::Question;

/// Whether it is a picture of its first entry.
pub fn is_picture(question: &Question, list: &[u16], ending: Ending) -> bool {
    !list.is_empty()
        && list.iter().all(|&state| (state as usize) < question.states)
        && list.windows(2).all(|pair| is_transition(question, pair))
        && list.iter().all(|&state| question.right[state as usize] == FALSE)
        && ends(question, list, ending)
}

/// Whether a list of states can end so.
pub fn ends(question: &Question, list: &[u16], ending: Ending) -> bool {
    let last = list[list.len() - 1];
    match ending {
        Ending::Falls => question.left[last as usize] == FALSE,
        Ending::Back(place) => list.get(place).is_some_and(|&state| is_transition(question, &[last, state])),
    }
}

fn is_transition(question: &Question, pair: &[u16]) -> bool {
    question.transitions.chunks(2).any(|transition| transition == pair)
}
