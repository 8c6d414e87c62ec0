//! A small generator of random numbers (splitmix64): the same seed always gives the same numbers.

use std::ops::RangeInclusive;

#[derive(Clone, Debug)]
pub struct Random {
    state: u64,
}

impl Random {
    pub fn new(seed: u64) -> Random {
        Random { state: seed }
    }

    /// The next 64 random bits.
    fn next(&mut self) -> u64 {
        self.state = self.state.wrapping_add(0x9e37_79b9_7f4a_7c15);
        let mut bits = self.state;
        bits = (bits ^ (bits >> 30)).wrapping_mul(0xbf58_476d_1ce4_e5b9);
        bits = (bits ^ (bits >> 27)).wrapping_mul(0x94d0_49bb_1331_11eb);
        bits ^ (bits >> 31)
    }

    /// A number from the range, both ends included.
    pub fn within(&mut self, range: RangeInclusive<i64>) -> i64 {
        let count = (range.end() - range.start() + 1) as u64;
        let offset = (u128::from(self.next()) * u128::from(count)) >> 64;
        range.start() + offset as i64
    }

    /// A place in a list of this length, which is not zero.
    pub fn place(&mut self, length: usize) -> usize {
        self.within(0..=length as i64 - 1) as usize
    }

    /// A byte from the range, both ends included.
    pub fn byte(&mut self, range: RangeInclusive<u8>) -> u8 {
        self.within(i64::from(*range.start())..=i64::from(*range.end())) as u8
    }

    /// True this many times in so many.
    pub fn chance(&mut self, times: i64, in_so_many: i64) -> bool {
        self.within(1..=in_so_many) <= times
    }

    /// One of the choices.
    pub fn pick<T: Copy>(&mut self, choices: &[T]) -> T {
        choices[self.place(choices.len())]
    }
}
