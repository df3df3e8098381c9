//! What the program under test answered, held to what the cases expect.

use crate::pictures::answering::ANY_PICTURE;
use crate::{answers, pictures};

/// Every case whose answer is not as expected; more answers than cases count as one more.
pub fn differing(cases: &[&[u8]], got: &[&[u8]]) -> Vec<usize> {
    let answered = |place: usize| cases.get(place).zip(got.get(place)).is_some_and(|(case, got)| agrees(case, got));
    let longest = cases.len().max(got.len()).min(cases.len() + 1);
    (0..longest).filter(|&place| !answered(place)).collect()
}

/// Whether an answer, with the line that ends it, is the expected one; where a picture is to be shown, any picture is.
fn agrees(case: &[u8], got: &[u8]) -> bool {
    let Some(text) = got.strip_suffix(b".\n") else {
        return false;
    };
    let expected = answers::answer(case);
    match case.starts_with(b"S\n") && expected == ANY_PICTURE {
        true => pictures::shown::accepts(case, text),
        false => text == expected.as_bytes(),
    }
}
