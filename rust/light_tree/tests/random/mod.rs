//! Numbers at random, the same in every run. Each test takes some of it.

#![allow(dead_code)]

pub struct Random(pub u64);

impl Random {
    /// The next word: splitmix64.
    pub fn word(&mut self) -> u64 {
        self.0 = self.0.wrapping_add(0x9e37_79b9_7f4a_7c15);
        let x = (self.0 ^ self.0 >> 30).wrapping_mul(0xbf58_476d_1ce4_e5b9);
        let x = (x ^ x >> 27).wrapping_mul(0x94d0_49bb_1331_11eb);
        x ^ x >> 31
    }

    /// One of so many numbers from 0 on.
    pub fn below(&mut self, count: usize) -> usize {
        (self.word() % count as u64) as usize
    }

    /// From 0 to below 1.
    pub fn share(&mut self) -> f32 {
        (self.word() >> 40) as f32 / (1u64 << 24) as f32
    }

    /// Three numbers of at most a size, of either sign.
    pub fn vector(&mut self, size: f32) -> [f32; 3] {
        [(); 3].map(|()| size * (2.0 * self.share() - 1.0))
    }
}
