//! Random cases over all kinds: of every two one is a model of the mixture of models, one about formulas.

use crate::random::Random;
use crate::{formula, generate};

/// Far from every case number of the other mixtures, so that no two cases share their random numbers.
const BEGIN: u64 = 1 << 34;

/// How many of a hundred in the mixture of models are models; they come first.
const MODELS: usize = 66;

/// Case number `number` of a seed.
pub fn case(seed: u64, number: usize) -> Vec<u8> {
    let (random, half) = (Random::of_case(seed, BEGIN + number as u64), number / 2);
    match number % 2 {
        0 => generate::drawn(random, half / MODELS * 100 + half % MODELS),
        _ => formula::mixture::drawn(random, half),
    }
}
