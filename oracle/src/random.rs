//! Pseudo-random numbers from a seed (splitmix64), with draws that favour boundaries.

pub struct Random(u64);

impl Random {
    /// A stream of its own for each round of a seed.
    pub fn new(seed: u64, round: u64) -> Self {
        let mut random = Self(seed ^ round.wrapping_mul(0xD6E8_FEB8_6659_FD93));
        random.any();
        random
    }

    pub fn any(&mut self) -> u64 {
        self.0 = self.0.wrapping_add(0x9E37_79B9_7F4A_7C15);
        let mut v = self.0;
        v = (v ^ (v >> 30)).wrapping_mul(0xBF58_476D_1CE4_E5B9);
        v = (v ^ (v >> 27)).wrapping_mul(0x94D0_49BB_1331_11EB);
        v ^ (v >> 31)
    }

    /// Below `n`, which is not 0.
    pub fn below(&mut self, n: u64) -> u64 {
        ((self.any() as u128 * n as u128) >> 64) as u64
    }

    /// From `a` to `b`, both included.
    pub fn range(&mut self, a: u64, b: u64) -> u64 {
        a + self.below(b - a + 1)
    }

    /// True once in `n` draws.
    pub fn one_in(&mut self, n: u64) -> bool {
        self.below(n) == 0
    }

    pub fn pick<T: Copy>(&mut self, from: &[T]) -> T {
        from[self.below(from.len() as u64) as usize]
    }

    pub fn byte(&mut self) -> u8 {
        self.any() as u8
    }

    /// A byte of an instruction: any, or at a limit.
    pub fn operand(&mut self) -> u8 {
        match self.below(4) {
            0 => self.pick(&[0, 1, 2, 31, 32, 33, 127, 128, 253, 254, 255]),
            1 => self.below(40) as u8,
            _ => self.byte(),
        }
    }

    /// A register's value: small, at a limit of the width or sign, or any.
    pub fn value(&mut self) -> u64 {
        match self.below(8) {
            0 => 0,
            1 => self.below(300),
            2 => self.pick(&[1, 2, 1 << 63, (1 << 63) - 1, u64::MAX, u64::MAX - 1, (1 << 63) + 1]),
            3 => 0u64.wrapping_sub(self.below(300)),
            4 => 1 << self.below(64),
            _ => self.any(),
        }
    }
}
