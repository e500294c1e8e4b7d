//! A seeded source of numbers (splitmix64).

use std::ops::RangeInclusive;

pub struct Random(u64);

impl Random {
    /// The source for one input: the same for the same seed and index, on every machine.
    pub fn new(seed: u64, index: u64) -> Self {
        let mut random = Random(seed);
        let start = random.next() ^ index.wrapping_mul(0xD6E8_FEB8_6659_FD93);
        random.0 = start;
        random.next();
        random
    }

    pub fn next(&mut self) -> u64 {
        self.0 = self.0.wrapping_add(0x9E37_79B9_7F4A_7C15);
        let mut mixed = self.0;
        mixed = (mixed ^ (mixed >> 30)).wrapping_mul(0xBF58_476D_1CE4_E5B9);
        mixed = (mixed ^ (mixed >> 27)).wrapping_mul(0x94D0_49BB_1331_11EB);
        mixed ^ (mixed >> 31)
    }

    /// A number under `count`; 0 if there is none.
    pub fn below(&mut self, count: usize) -> usize {
        if count == 0 { 0 } else { (self.next() % count as u64) as usize }
    }

    pub fn from(&mut self, range: RangeInclusive<i64>) -> i64 {
        let (low, high) = range.into_inner();
        let count = (high as i128 - low as i128 + 1).max(1) as u128;
        (low as i128 + (u128::from(self.next()) % count) as i128) as i64
    }

    /// True once in `times`.
    pub fn once_in(&mut self, times: usize) -> bool {
        self.below(times) == 0
    }

    pub fn pick<T: Copy>(&mut self, from: &[T]) -> T {
        from[self.below(from.len())]
    }

    /// A number of the range, its ends, zero, the numbers next to these and small numbers more often.
    pub fn number(&mut self, range: RangeInclusive<i64>) -> i64 {
        let (low, high) = range.clone().into_inner();
        let number = match self.below(12) {
            0 => low,
            1 => high,
            2 => 0,
            3 => self.pick(&[low + 1, high - 1, 1, -1]),
            4..=7 => {
                let size = 10_i64.pow(self.below(8) as u32);
                self.from(-size..=size)
            }
            _ => self.from(range),
        };
        number.clamp(low, high)
    }

    pub fn bytes(&mut self, count: usize) -> Vec<u8> {
        (0..count).map(|_| self.next() as u8).collect()
    }
}
