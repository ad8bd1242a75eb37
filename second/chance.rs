//! Pseudo-random choices, the same ones for the same seed.

use std::ops::RangeInclusive;

/// The pseudo-random numbers of xorshift64*. Its state is never 0.
pub struct Chance(u64);

impl Chance {
    /// The seed is not 0.
    pub fn new(seed: u64) -> Self {
        Self(seed)
    }

    fn next(&mut self) -> u64 {
        self.0 ^= self.0 >> 12;
        self.0 ^= self.0 << 25;
        self.0 ^= self.0 >> 27;
        self.0.wrapping_mul(0x2545_F491_4F6C_DD1D)
    }

    pub fn below(&mut self, bound: usize) -> usize {
        // The upper half has the better bits, and it fits into usize on any machine of 32 bits or more.
        (self.next() >> 32) as usize % bound
    }

    pub fn one_in(&mut self, count: usize) -> bool {
        self.below(count) == 0
    }

    pub fn pick<T: Copy>(&mut self, choices: &[T]) -> T {
        choices[self.below(choices.len())]
    }

    pub fn within(&mut self, range: RangeInclusive<u16>) -> u16 {
        let count = usize::from(range.end() - range.start()) + 1;
        range.start() + self.below(count) as u16
    }

    /// Some of the choices, each once at most, in any order.
    pub fn sample<T: Copy>(&mut self, choices: &[T], count: usize) -> Vec<T> {
        let mut left = choices.to_vec();
        (0..count)
            .map(|_| left.swap_remove(self.below(left.len())))
            .collect()
    }
}
