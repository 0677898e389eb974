//! A small generator of pseudo-random numbers (splitmix64), the same for the same seed.

use std::ops::RangeInclusive;

pub struct Random {
    state: u64,
}

impl Random {
    /// The generator of one case of a seed.
    pub fn new(seed: u64, case: u64) -> Random {
        let mut random = Random { state: seed };
        random.state = random.next() ^ case.wrapping_mul(0x2545_F491_4F6C_DD1D);
        random
    }

    pub fn next(&mut self) -> u64 {
        self.state = self.state.wrapping_add(0x9E37_79B9_7F4A_7C15);
        let mixed = (self.state ^ (self.state >> 30)).wrapping_mul(0xBF58_476D_1CE4_E5B9);
        let mixed = (mixed ^ (mixed >> 27)).wrapping_mul(0x94D0_49BB_1331_11EB);
        mixed ^ (mixed >> 31)
    }

    /// A number below the bound.
    pub fn below(&mut self, bound: usize) -> usize {
        (self.next() % bound as u64) as usize
    }

    pub fn within(&mut self, range: RangeInclusive<usize>) -> usize {
        range.start() + self.below(range.end() - range.start() + 1)
    }

    /// True once in so many times.
    pub fn once_in(&mut self, times: usize) -> bool {
        self.below(times) == 0
    }

    pub fn pick<T: Clone>(&mut self, choices: &[T]) -> T {
        choices[self.below(choices.len())].clone()
    }

    pub fn byte(&mut self) -> u8 {
        self.next() as u8
    }

    /// So many bytes out of a set.
    pub fn bytes(&mut self, set: &[u8], length: usize) -> Vec<u8> {
        (0..length).map(|_| self.pick(set)).collect()
    }
}

/// The number of a case's turn: those of neighbouring cases are far from each other, and a row of
/// cases has as many different ones, counted by anything that 7,919 is no factor of.
pub fn turn(seed: u64, number: u64) -> usize {
    (seed.wrapping_mul(389).wrapping_add(number) % 1_000_003 * 7_919) as usize
}
