//! Random numbers from a seed (splitmix64): the same seed gives the same run.

use robequarry::limits::{LAST_CELL, LAST_CORNER, LAST_LETTER, SIDE};

use crate::Point;

pub struct Random {
    state: u64,
}

impl Random {
    pub fn new(seed: u64) -> Self {
        Random { state: seed }
    }

    /// Any number of 64 bits.
    pub fn any(&mut self) -> u64 {
        self.state = self.state.wrapping_add(0x9e37_79b9_7f4a_7c15);
        let mut z = self.state;
        z = (z ^ (z >> 30)).wrapping_mul(0xbf58_476d_1ce4_e5b9);
        z = (z ^ (z >> 27)).wrapping_mul(0x94d0_49bb_1331_11eb);
        z ^ (z >> 31)
    }

    /// A number below `end`, which is above 0.
    pub fn below(&mut self, end: usize) -> usize {
        ((u128::from(self.any()) * end as u128) >> 64) as usize
    }

    /// A number from `low` to `high`, both included.
    pub fn from_to(&mut self, low: usize, high: usize) -> usize {
        low + self.below(high - low + 1)
    }

    /// True once in `times`.
    pub fn once_in(&mut self, times: usize) -> bool {
        self.below(times) == 0
    }

    /// A number from 0 up to, not including, 1.
    pub fn fraction(&mut self) -> f64 {
        (self.any() >> 11) as f64 / (1u64 << 53) as f64
    }

    /// A number of 16 bits: most often near the limits of the chart, sometimes any.
    fn odd_number(&mut self) -> u16 {
        match self.below(4) {
            0 => self.below(8) as u16,
            1 => self.from_to(usize::from(SIDE) - 5, usize::from(SIDE) + 5) as u16,
            2 => [511, 512, 32_767, 32_768, 65_280, 65_535][self.below(6)],
            _ => self.any() as u16,
        }
    }

    /// Any letter.
    pub fn letter(&mut self) -> u8 {
        self.from_to(0, usize::from(LAST_LETTER)) as u8
    }

    /// Any corner of the chart.
    pub fn corner(&mut self) -> Point {
        self.point(LAST_CORNER)
    }

    /// Any cell of the chart.
    pub fn cell(&mut self) -> Point {
        self.point(LAST_CELL)
    }

    /// Two numbers of 16 bits, most often near the limits of the chart.
    pub fn odd_point(&mut self) -> Point {
        Point::new(self.odd_number(), self.odd_number())
    }

    fn point(&mut self, last: u16) -> Point {
        Point::new(self.from_to(0, usize::from(last)) as u16, self.from_to(0, usize::from(last)) as u16)
    }
}

#[cfg(test)]
mod tests {
    use super::*;

    /// The first numbers of splitmix64 from two seeds, as they are published for it.
    #[test]
    fn published_numbers() {
        let first = |seed: u64| {
            let mut random = Random::new(seed);
            [random.any(), random.any(), random.any()]
        };
        assert_eq!(first(0), [0xe220_a839_7b1d_cdaf, 0x6e78_9e6a_a1b9_65f4, 0x06c4_5d18_8009_454f]);
        assert_eq!(first(1_234_567), [6_457_827_717_110_365_317, 3_203_168_211_198_807_973, 9_817_491_932_198_370_423]);
    }
}
