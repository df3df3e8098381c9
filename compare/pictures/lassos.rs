//! Whether there is a picture from a state: a search along the paths, and for few states every list there is.

use super::asking::Ending;
use super::checker::is_picture;
use crate::model::FALSE;
use crate::question::Question;

/// All lists of more states would be too many.
const MOST_LISTED: usize = 6;

/// A picture from the start, its ways tried in the order that the successors have; no two of its entries are the same.
pub fn from(question: &Question, next: &[Vec<usize>], start: u16) -> Option<(Vec<u16>, Ending)> {
    let mut search = Search { question, next, path: Vec::new(), done: vec![false; question.states] };
    let ending = search.descend(start)?;
    Some((search.path, ending))
}

struct Search<'a> {
    question: &'a Question,
    next: &'a [Vec<usize>],
    path: Vec<u16>,
    done: Vec<bool>,
}

impl Search<'_> {
    /// Depth first through states whose right value is false, the others barred, up to one where the path falls or that
    /// it has met.
    fn descend(&mut self, state: u16) -> Option<Ending> {
        let place = state as usize;
        if self.question.right[place] != FALSE || self.done[place] {
            return None;
        }
        if let Some(back) = self.path.iter().position(|&earlier| earlier == state) {
            return Some(Ending::Back(back));
        }
        self.path.push(state);
        if self.question.left[place] == FALSE {
            return Some(Ending::Falls);
        }
        let next = self.next;
        let found = next[place].iter().find_map(|&onward| self.descend(onward as u16));
        if found.is_none() {
            self.path.pop();
            // Each way on is barred or leads to a state done before this one, so on no path it falls or comes round.
            self.done[place] = true;
        }
        found
    }
}

/// Whether some list of at most as many entries as there are states is a picture with some ending; nothing for more
/// states.
pub fn among_all_lists(question: &Question, start: u16) -> Option<bool> {
    if question.states > MOST_LISTED {
        return None;
    }
    let lists = (1..=question.states).flat_map(|entries| all_lists(question.states, start, entries));
    let endings = |list: &[u16]| (0..list.len()).map(Ending::Back).chain([Ending::Falls]);
    let mut pictures = lists.filter(|list| endings(list).any(|ending| is_picture(question, list, ending)));
    Some(pictures.next().is_some())
}

/// Every list of so many states that begins with the start: the digits of every number, joined or not.
fn all_lists(states: usize, start: u16, entries: usize) -> impl Iterator<Item = Vec<u16>> {
    let power = move |place: usize| states.pow(place as u32);
    let behind = move |number: usize| (0..entries - 1).map(move |place| (number / power(place) % states) as u16);
    (0..power(entries - 1)).map(move |number| [start].into_iter().chain(behind(number)).collect())
}
