//! Stand-in for `fugit`: 32-bit rates and durations, with the operators that the original uses.
//!
//! The arithmetic is that of `u32`, so a product that does not fit panics in a checked build.
use core::ops::{Div, DivAssign, Mul};

/// A rate of `raw` times NUM / DENOM per second.
#[derive(Debug, Clone, Copy, PartialEq, Eq, PartialOrd, Ord)]
pub struct Rate<const NUM: u32, const DENOM: u32> {
    raw: u32,
}

/// A duration of `raw` times NUM / DENOM seconds; the original only names it.
#[derive(Debug, Clone, Copy, PartialEq, Eq, PartialOrd, Ord)]
pub struct Duration<const NUM: u32, const DENOM: u32> {
    raw: u32,
}

pub type HertzU32 = Rate<1, 1>;
pub type KilohertzU32 = Rate<1_000, 1>;
pub type MegahertzU32 = Rate<1_000_000, 1>;
pub type SecsDurationU32 = Duration<1, 1>;
pub type MillisDurationU32 = Duration<1, 1_000>;
pub type MicrosDurationU32 = Duration<1, 1_000_000>;
pub type NanosDurationU32 = Duration<1, 1_000_000_000>;

impl<const NUM: u32, const DENOM: u32> Rate<NUM, DENOM> {
    #[inline]
    pub const fn from_raw(raw: u32) -> Self {
        Self { raw }
    }

    #[inline]
    pub const fn to_raw(&self) -> u32 {
        self.raw
    }
}

impl<const NUM: u32, const DENOM: u32> Div<u32> for Rate<NUM, DENOM> {
    type Output = Self;
    #[inline]
    fn div(self, by: u32) -> Self {
        Self::from_raw(self.raw / by)
    }
}

/// How many times one rate goes into another, rounded down.
impl<const NUM: u32, const DENOM: u32> Div for Rate<NUM, DENOM> {
    type Output = u32;
    #[inline]
    fn div(self, by: Self) -> u32 {
        self.raw / by.raw
    }
}

impl<const NUM: u32, const DENOM: u32> DivAssign<u32> for Rate<NUM, DENOM> {
    #[inline]
    fn div_assign(&mut self, by: u32) {
        self.raw /= by;
    }
}

impl<const NUM: u32, const DENOM: u32> Mul<u32> for Rate<NUM, DENOM> {
    type Output = Self;
    #[inline]
    fn mul(self, by: u32) -> Self {
        Self::from_raw(self.raw * by)
    }
}

impl<const NUM: u32, const DENOM: u32> Mul<Rate<NUM, DENOM>> for u32 {
    type Output = Rate<NUM, DENOM>;
    #[inline]
    fn mul(self, rate: Rate<NUM, DENOM>) -> Rate<NUM, DENOM> {
        rate * self
    }
}
