//! A small seeded generator (splitmix64).

use crate::number::narrowed;

#[derive(Clone, Debug)]
pub struct Rng(u64);

impl Rng {
    /// The `index`th generator of a seed.
    pub fn new(seed: u64, index: u64) -> Rng {
        let mut mixed = Rng(seed);
        let start = mixed.next() ^ index.wrapping_mul(0xD134_2543_DE82_EF95);
        let mut rng = Rng(start);
        rng.next();
        rng
    }

    fn next(&mut self) -> u64 {
        self.0 = self.0.wrapping_add(0x9E37_79B9_7F4A_7C15);
        let mut z = self.0;
        z = (z ^ (z >> 30)).wrapping_mul(0xBF58_476D_1CE4_E5B9);
        z = (z ^ (z >> 27)).wrapping_mul(0x94D0_49BB_1331_11EB);
        z ^ (z >> 31)
    }

    pub fn word(&mut self) -> u32 {
        (self.next() >> 32) as u32
    }

    pub fn byte(&mut self) -> u8 {
        (self.next() >> 56) as u8
    }

    /// 0 to `end - 1`; 0 when `end` is 0.
    pub fn below(&mut self, end: usize) -> usize {
        narrowed((u128::from(self.next()) * end as u128) >> 64)
    }

    /// `low` to `high`, both included.
    pub fn between(&mut self, low: u32, high: u32) -> u32 {
        low + narrowed::<u32>(self.below((high - low) as usize + 1))
    }

    /// True about once in `times`; never when `times` is 0.
    pub fn one_in(&mut self, times: usize) -> bool {
        times > 0 && self.below(times) == 0
    }

    pub fn pick<T: Copy>(&mut self, from: &[T]) -> T {
        from[self.below(from.len())]
    }

    pub fn shuffle<T>(&mut self, list: &mut [T]) {
        for i in (1..list.len()).rev() {
            list.swap(i, self.below(i + 1));
        }
    }
}
