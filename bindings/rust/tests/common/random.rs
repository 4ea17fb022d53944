//! Numbers for tests that make their own cases.
#![allow(dead_code)]

/// Numbers that look random: xorshift.
pub struct Random(pub u64);

impl Random {
    /// A number below n.
    pub fn below(&mut self, n: usize) -> usize {
        self.0 ^= self.0 << 13;
        self.0 ^= self.0 >> 7;
        self.0 ^= self.0 << 17;
        (self.0 >> 16) as usize % n
    }

    /// One of some.
    pub fn pick<T: Copy>(&mut self, some: &[T]) -> T {
        some[self.below(some.len())]
    }
}
