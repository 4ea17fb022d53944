//! Numbers that look random, the same in every run.

pub struct Random(u64);

impl Random {
    pub fn new(seed: u64) -> Self {
        Random(seed.wrapping_mul(0x9e37_79b9_7f4a_7c15) | 1)
    }

    /// 32 bits: xorshift.
    pub fn bits(&mut self) -> u32 {
        self.0 ^= self.0 << 13;
        self.0 ^= self.0 >> 7;
        self.0 ^= self.0 << 17;
        (self.0 >> 32) as u32
    }

    /// Noise about zero, with a spread of one: a sum of twelve even numbers is nearly normal.
    pub fn noise(&mut self) -> f64 {
        (0..12).map(|_| f64::from(self.bits()) / f64::from(u32::MAX)).sum::<f64>() - 6.0
    }
}
