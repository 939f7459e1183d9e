//! Random numbers and bytes, the same in every run.

/// Marsaglia's xorshift, 64 bits.
pub struct Random(u64);

impl Random {
    /// The seed is not 0, which would stay 0 for ever.
    pub fn new(seed: u64) -> Self {
        Random(seed)
    }

    pub fn next(&mut self) -> u64 {
        self.0 ^= self.0 << 13;
        self.0 ^= self.0 >> 7;
        self.0 ^= self.0 << 17;
        self.0
    }

    /// A number below `end`, from the high bits.
    pub fn below(&mut self, end: usize) -> usize {
        ((self.next() >> 32) % end as u64) as usize
    }

    pub fn byte(&mut self) -> u8 {
        self.below(256) as u8
    }

    pub fn bytes_up_to(&mut self, longest: usize) -> Vec<u8> {
        let length = self.below(longest + 1);
        (0..length).map(|_| self.byte()).collect()
    }
}

pub fn repeat(count: usize, step: impl FnMut()) {
    std::iter::repeat_with(step).take(count).for_each(drop);
}
