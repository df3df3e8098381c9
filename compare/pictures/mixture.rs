//! Random cases about pictures, by their number modulo 20:
//!    0 to 7   W
//!    8        W refused by one cause (1, 6, 7, 8, 9, 14, 15, 16 in turn)
//!    9        W or X with several causes at once
//!   10 to 17  X
//!   18        X refused by one cause (1, 6, 7, 8, 9, 14 in turn)
//!   19        at an edge, the edges in turn
//! S asks what W asks and is never stored: its answer is not one text.

use super::asking::{write, Asking};
use super::{edges, lists, refused, shown};
use crate::random::Random;

/// Far from every case number of the other mixtures, so that no two cases share their random numbers.
const BEGIN: u64 = 1 << 36;

/// Case number `number` of a seed, W or X.
pub fn case(seed: u64, number: usize) -> Vec<u8> {
    let mut random = Random::of_case(seed, BEGIN + number as u64);
    let turn = number / 20;
    match number % 20 {
        0..=7 => word(&mut random),
        8 => refused::alone(&mut random, refused::CAUSES[turn % refused::CAUSES.len()], false),
        9 => refused::several(&mut random),
        10..=17 => check(&mut random),
        18 => refused::alone(&mut random, refused::CAUSES[turn % refused::OF_CHECK], true),
        _ => edges::case(&mut random, turn % edges::FAMILIES),
    }
}

/// The same, two of three W as S.
pub fn fresh(seed: u64, number: usize) -> Vec<u8> {
    let case = case(seed, number);
    match number % 3 {
        0 => case,
        _ => shown::of_word(&case).unwrap_or(case),
    }
}

/// With an entry for each state, more, less or none.
fn word(random: &mut Random) -> Vec<u8> {
    let (question, start) = lists::question(random);
    let room = match random.weighted(&[65, 15, 8, 4, 8]) {
        0 => question.states,
        1 => random.pick(&[question.states + 1, 256, 300, 65_535]),
        2 => question.states - 1,
        3 => 0,
        _ => random.below(question.states + 2),
    };
    write(&question, &Asking::Word { start, room })
}

/// Mostly where there is a picture.
fn check(random: &mut Random) -> Vec<u8> {
    let (question, start) = if random.chance(85) { lists::false_question(random) } else { lists::question(random) };
    let (list, ending) = lists::any_list(random, &question, start);
    write(&question, &Asking::Check { list, ending })
}
