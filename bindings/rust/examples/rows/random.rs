//! Numbers that look random, by shifts of 64 bits.

pub struct Random(u64);

impl Random {
    pub fn new(seed: u64) -> Random {
        Random(2 * seed + 1)
    }

    /// A number below the bound.
    pub fn next(&mut self, bound: usize) -> usize {
        self.0 ^= self.0 << 13;
        self.0 ^= self.0 >> 7;
        self.0 ^= self.0 << 17;
        (self.0 % bound as u64) as usize
    }
}
