//! A small generator of random numbers (SplitMix64): the same seed and stream give the same numbers everywhere.
use std::cell::Cell;

pub struct Rng(Cell<u64>);

impl Rng {
    /// Streams of one seed have nothing to do with each other.
    pub fn new(seed: u64, stream: u64) -> Self {
        let mixed = Self(Cell::new(seed)).next();
        Self(Cell::new(
            mixed ^ stream.wrapping_mul(0xD1B5_4A32_D192_ED03),
        ))
    }

    pub fn next(&self) -> u64 {
        let mut z = self.0.get().wrapping_add(0x9E37_79B9_7F4A_7C15);
        self.0.set(z);
        z = (z ^ (z >> 30)).wrapping_mul(0xBF58_476D_1CE4_E5B9);
        z = (z ^ (z >> 27)).wrapping_mul(0x94D0_49BB_1331_11EB);
        z ^ (z >> 31)
    }

    pub fn word(&self) -> u32 {
        (self.next() >> 32) as u32
    }

    /// A number below `end`, which is not 0.
    pub fn below(&self, end: u32) -> u32 {
        self.within(0, end - 1)
    }

    /// A number from `low` to `high`, both counted in.
    pub fn within(&self, low: u32, high: u32) -> u32 {
        let ways = u64::from(high - low) + 1;
        low + ((u64::from(self.word()) * ways) >> 32) as u32
    }

    /// A number of every magnitude: first its length in bits, then the bits.
    pub fn magnitude(&self, bits: u32) -> u32 {
        let length = self.within(0, bits);
        (u64::from(self.word()) & ((1 << length) - 1)) as u32
    }

    /// The number itself or a close neighbour.
    pub fn near(&self, number: u32) -> u32 {
        number.saturating_add(self.below(5)).saturating_sub(2)
    }

    pub fn one_in(&self, n: u32) -> bool {
        self.below(n) == 0
    }

    pub fn pick<T: Copy>(&self, from: &[T]) -> T {
        from[self.below(from.len() as u32) as usize]
    }
}
