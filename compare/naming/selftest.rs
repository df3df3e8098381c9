//! Refusal 22 by hand.

use super::listed::{by_another_kind, naming, with_nodes};
use crate::judge::{judge, judge_whole};
use crate::model::Model;

pub fn run() {
    let answer = |model: &Model| judge_whole(model).err();
    assert_eq!(answer(&with_nodes(0, &[[0, 0, 0]])), None, "without an atom there is nothing to name");
    assert_eq!(answer(&with_nodes(32, &naming(0..32))), None);
    assert_eq!(answer(&with_nodes(32, &naming(0..31))), Some(22), "the last one is forgotten");
    assert_eq!(answer(&with_nodes(32, &naming(1..32))), Some(22), "the first one is");
    assert_eq!(answer(&with_nodes(1, &[[0, 0, 0]])), Some(22));
    by_another_kind().iter().for_each(|model| assert_eq!(answer(model), Some(22), "{model:?}"));
    assert_eq!(answer(&with_nodes(2, &[[1, 1, 0], [1, 0, 0], [0, 0, 0]])), None, "no other node need use it");
    assert_eq!(answer(&with_nodes(2, &[[1, 0, 0], [4, 1, 0]])), Some(12));
    order();
}

/// The space comes before the names.
fn order() {
    let (lost, whole) = (with_nodes(2, &naming(0..1)), with_nodes(2, &naming(0..2)));
    assert_eq!([judge(&lost, 1).err(), judge(&lost, 2).err()], [Some(13), Some(22)]);
    assert_eq!([judge(&whole, 3).err(), judge(&whole, 4).err()], [Some(13), None]);
}
