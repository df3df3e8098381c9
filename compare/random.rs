//! A small random generator (splitmix64): one seed and one case number give the same case everywhere.

use crate::kinds::Kinds;

pub struct Random {
    state: u64,
    /// Which kinds of nodes are drawn.
    pub kinds: Kinds,
}

impl Random {
    /// Each case has its own stream, so a case does not depend on those before it.
    pub fn of_case(seed: u64, case: u64) -> Random {
        let mut random = Random { state: seed, kinds: Kinds::All };
        let first = random.next();
        Random { state: first ^ case.wrapping_mul(0xd1b5_4a32_d192_ed03), ..random }
    }

    pub fn drawing(self, kinds: Kinds) -> Random {
        Random { kinds, ..self }
    }

    pub fn next(&mut self) -> u64 {
        self.state = self.state.wrapping_add(0x9e37_79b9_7f4a_7c15);
        let mut z = self.state;
        z = (z ^ (z >> 30)).wrapping_mul(0xbf58_476d_1ce4_e5b9);
        z = (z ^ (z >> 27)).wrapping_mul(0x94d0_49bb_1331_11eb);
        z ^ (z >> 31)
    }

    /// A number from 0 to `count - 1`.
    pub fn below(&mut self, count: usize) -> usize {
        assert!(count > 0, "a choice among nothing");
        ((self.next() >> 11) % count as u64) as usize
    }

    /// A number from `low` to `high`, both included.
    pub fn between(&mut self, low: usize, high: usize) -> usize {
        low + self.below(high - low + 1)
    }

    pub fn chance(&mut self, percent: usize) -> bool {
        self.below(100) < percent
    }

    pub fn pick<T: Copy>(&mut self, list: &[T]) -> T {
        list[self.below(list.len())]
    }

    /// A place of the list, each as likely as its weight says.
    pub fn weighted(&mut self, weights: &[usize]) -> usize {
        let mut left = self.below(weights.iter().sum());
        for (place, &weight) in weights.iter().enumerate() {
            if left < weight {
                return place;
            }
            left -= weight;
        }
        unreachable!("the weights add up to their sum")
    }

    pub fn shuffle<T>(&mut self, list: &mut [T]) {
        for place in (1..list.len()).rev() {
            list.swap(place, self.below(place + 1));
        }
    }
}
