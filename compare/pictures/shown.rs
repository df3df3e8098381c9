//! Pictures as they are shown: cases that show them made of those that don't, and what is shown judged.

use super::asking::{self, Asking, Ending};
use super::checker;
use crate::model::joined;

/// The same question with its picture shown; nothing for a case that asks for none.
pub fn of_word(case: &[u8]) -> Option<Vec<u8>> {
    case.strip_prefix(b"W\n").map(|lines| [b"S\n", lines].concat())
}

/// Whether the text is a picture of what the case asks, written as it should be, with no more entries than states.
pub fn accepts(case: &[u8], text: &[u8]) -> bool {
    let (Some((question, Asking::Shown { start, .. })), Some((list, ending))) = (asking::read(case), read(text)) else {
        return false;
    };
    text == written(&list, ending).as_bytes()
        && list.first() == Some(&start)
        && list.len() <= question.states
        && checker::is_picture(&question, &list, ending)
}

pub fn written(list: &[u16], ending: Ending) -> String {
    let ending = match ending {
        Ending::Falls => String::from("falls"),
        Ending::Back(place) => format!("back={place}"),
    };
    format!("path={}\n{ending}\n", joined(list))
}

/// What a text says if it has the form of a picture, whatever else it has.
fn read(text: &[u8]) -> Option<(Vec<u16>, Ending)> {
    let (list, ending) = std::str::from_utf8(text).ok()?.strip_prefix("path=")?.split_once('\n')?;
    let list = list.split(',').map(|state| state.parse().ok()).collect::<Option<Vec<u16>>>()?;
    match ending.trim_end().strip_prefix("back=") {
        Some(place) => Some((list, Ending::Back(place.parse().ok()?))),
        None => Some((list, Ending::Falls)),
    }
}
