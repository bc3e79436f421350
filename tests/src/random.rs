//! splitmix64.

use std::hash::{BuildHasher, RandomState};

pub struct Random(u64);

/// Another one each time, from the system.
pub fn fresh_seed() -> u64 {
    RandomState::new().hash_one(0)
}

impl Random {
    pub fn new(seed: u64) -> Random {
        Random(seed)
    }

    pub fn word(&mut self) -> u64 {
        self.0 = self.0.wrapping_add(0x9e37_79b9_7f4a_7c15);
        let mut z = self.0;
        z = (z ^ (z >> 30)).wrapping_mul(0xbf58_476d_1ce4_e5b9);
        z = (z ^ (z >> 27)).wrapping_mul(0x94d0_49bb_1331_11eb);
        z ^ (z >> 31)
    }

    /// 0 to bound - 1; 0 for bound 0.
    pub fn below(&mut self, bound: u64) -> u64 {
        ((u128::from(self.word()) * u128::from(bound)) >> 64) as u64
    }

    /// low to high, both included.
    pub fn within(&mut self, low: u64, high: u64) -> u64 {
        low + self.below(high - low + 1)
    }

    pub fn percent(&mut self, chance: u64) -> bool {
        self.below(100) < chance
    }

    pub fn pick<T: Copy>(&mut self, from: &[T]) -> T {
        from[self.below(from.len() as u64) as usize]
    }

    /// One of the rows, each as often as its weight says.
    pub fn weighted<T: Copy>(&mut self, rows: &[(u64, T)]) -> T {
        let mut at = self.below(rows.iter().map(|row| row.0).sum());
        for &(weight, thing) in rows {
            if at < weight {
                return thing;
            }
            at -= weight;
        }
        unreachable!("all weights are 0")
    }

    /// Any number, small ones and those near the ends of 64 bits as likely as the rest.
    pub fn number(&mut self) -> u64 {
        match self.below(4) {
            0 => self.below(300),
            1 => u64::MAX - self.below(40),
            2 => self.word() >> self.below(64),
            _ => self.word(),
        }
    }
}
