//! Random numbers by splitmix64.

use std::ops::RangeInclusive;

pub struct Random(u64);

impl Random {
    pub fn new(seed: u64) -> Random {
        Random(seed)
    }

    pub fn next(&mut self) -> u64 {
        self.0 = self.0.wrapping_add(0x9E37_79B9_7F4A_7C15);
        let mut mixed = self.0;
        mixed = (mixed ^ (mixed >> 30)).wrapping_mul(0xBF58_476D_1CE4_E5B9);
        mixed = (mixed ^ (mixed >> 27)).wrapping_mul(0x94D0_49BB_1331_11EB);
        mixed ^ (mixed >> 31)
    }

    /// A place in a list of this length, which is not 0.
    pub fn below(&mut self, length: usize) -> usize {
        (self.next() % length as u64) as usize
    }

    pub fn one_in(&mut self, times: usize) -> bool {
        self.below(times) == 0
    }

    pub fn pick<T: Copy>(&mut self, list: &[T]) -> T {
        list[self.below(list.len())]
    }

    /// A number of the range, which is not all of `u64`.
    pub fn within<T>(&mut self, range: RangeInclusive<T>) -> T
    where
        T: Copy + Into<u64> + TryFrom<u64>,
    {
        let (low, high) = ((*range.start()).into(), (*range.end()).into());
        narrow(low + self.next() % (high - low + 1))
    }

    /// 1 to `most`, all sizes alike: few bits as often as many.
    pub fn sized<T>(&mut self, most: T) -> T
    where
        T: Copy + Into<u64> + TryFrom<u64>,
    {
        let bits = self.within(0..=most.into().ilog2());
        narrow((self.next() >> (63 - bits)).clamp(1, most.into()))
    }

    pub fn bytes(&mut self, length: usize) -> Vec<u8> {
        (0..length).map(|_| self.next() as u8).collect()
    }
}

/// A number that is between two of the narrower type.
fn narrow<T: TryFrom<u64>>(number: u64) -> T {
    T::try_from(number).unwrap_or_else(|_| unreachable!())
}
