//! Numbers that look random.

/// A generator (Vigna's xorshift64*).
pub struct Random(u64);

impl Random {
    /// The generator of a seed: neighbouring seeds give generators far apart.
    pub fn of_seed(seed: u64) -> Random {
        let word = (seed + 1).wrapping_mul(0x9e37_79b9_7f4a_7c15);
        Random(word.max(1))
    }

    /// A number below n, which isn't 0.
    pub fn below(&mut self, n: u32) -> u32 {
        self.0 ^= self.0 >> 12;
        self.0 ^= self.0 << 25;
        self.0 ^= self.0 >> 27;
        let high = self.0.wrapping_mul(0x2545_f491_4f6c_dd1d) >> 32;
        ((high * u64::from(n)) >> 32) as u32
    }

    /// Whether one of n happens.
    pub fn one_of(&mut self, n: u32) -> bool {
        self.below(n) == 0
    }
}
