//! What streams and runs by chance are made with.

use crate::{members_of, single, Set};

/// Numbers by chance, the same ones from the same seed.
pub struct Rng(pub u64);

impl Rng {
    /// Of a small seed.
    pub fn of(seed: u64) -> Rng {
        Rng(seed.wrapping_mul(0xd134_2543_de82_ef95) ^ 0x5851_f42d_4c95_7f2d)
    }
    /// Any of 64 bits.
    pub fn word(&mut self) -> u64 {
        self.0 = self.0.wrapping_add(0x9e37_79b9_7f4a_7c15);
        let mut z = self.0;
        z = (z ^ (z >> 30)).wrapping_mul(0xbf58_476d_1ce4_e5b9);
        z = (z ^ (z >> 27)).wrapping_mul(0x94d0_49bb_1331_11eb);
        z ^ (z >> 31)
    }
    /// 0 to n - 1.
    pub fn below(&mut self, n: u64) -> u64 {
        self.word() % n
    }
    /// From one to the other, both of them among it.
    pub fn between(&mut self, low: u32, high: u32) -> u32 {
        low + self.below(u64::from(high - low) + 1) as u32
    }
    /// True in p of 1,000.
    pub fn chance(&mut self, p: u32) -> bool {
        self.below(1_000) < u64::from(p)
    }
    /// One of them.
    pub fn pick<T: Copy>(&mut self, from: &[T]) -> T {
        from[self.below(from.len() as u64) as usize]
    }
    /// In any order.
    pub fn shuffle<T>(&mut self, all: &mut [T]) {
        for i in (1..all.len()).rev() {
            all.swap(i, self.below(i as u64 + 1) as usize);
        }
    }
    /// One of a set, if there is any.
    pub fn member_of(&mut self, set: Set) -> Option<u32> {
        let all: Vec<u32> = members_of(set).collect();
        if all.is_empty() { None } else { Some(self.pick(&all)) }
    }
    /// Each member of the set stays in with p of 1,000.
    pub fn thin(&mut self, set: Set, p: u32) -> Set {
        members_of(set).filter(|_| self.chance(p)).map(single).fold(0, |a, b| a | b)
    }
}
