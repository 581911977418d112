//! Xorshift with a multiplied output (Vigna's xorshift64*).

pub struct Random {
    state: u64,
}

impl Random {
    /// Any seed is taken; 0 would stay 0, so it is mixed first.
    pub fn new(seed: u64) -> Random {
        Random {
            state: (seed ^ 0x9e37_79b9_7f4a_7c15).max(1),
        }
    }

    pub fn next(&mut self) -> u64 {
        self.state ^= self.state >> 12;
        self.state ^= self.state << 25;
        self.state ^= self.state >> 27;
        self.state.wrapping_mul(0x2545_f491_4f6c_dd1d)
    }

    /// Below `count`, which is not 0.
    pub fn below(&mut self, count: u64) -> u64 {
        (u128::from(self.next()) * u128::from(count) >> 64) as u64
    }

    /// From `low` to `high`; `low` where there is nothing between.
    pub fn between(&mut self, low: u32, high: u32) -> u32 {
        low + self.below(u64::from(high.saturating_sub(low)) + 1) as u32
    }

    /// A number of any length in bits, up to 32.
    pub fn of_any_size(&mut self) -> u32 {
        let bits = self.between(1, 32);
        (self.next() >> (64 - bits)) as u32
    }

    /// True once in `count`.
    pub fn one_in(&mut self, count: u64) -> bool {
        self.below(count) == 0
    }

    pub fn pick<T: Copy>(&mut self, from: &[T]) -> T {
        from[self.below(from.len() as u64) as usize]
    }
}
