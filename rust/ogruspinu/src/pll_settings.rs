//! PLL settings: those that the manual has for a multiplier.
use crate::raw;
use crate::refusal::{Refusal, words_or};
use crate::time::Hertz;

/// The smallest multiplier.
pub const PLL_MUL_MIN: u32 = 13;
/// The largest multiplier.
pub const PLL_MUL_MAX: u32 = 66;

/// A PLL's setting.
#[derive(Clone, Copy, Debug, PartialEq, Eq)]
pub struct PllConfig {
    fdiv: u8,
    charge_pump: u8,
    loop_resistor: u8,
    lock_count: u16,
}

impl PllConfig {
    /// The manual's setting for a multiplier. Refusal: [`Refusal::MulRange`].
    ///
    /// ```
    /// use ogruspinu::{Refusal, pll_settings::PllConfig};
    ///
    /// assert_eq!(PllConfig::new(40)?, PllConfig::new_raw(40, 2, 2, 250));
    /// assert_eq!(PllConfig::new(12), Err(Refusal::MulRange(12)));
    /// # Ok::<(), Refusal>(())
    /// ```
    #[inline]
    pub fn new(pll_mul: u32) -> Result<Self, Refusal> {
        let refused = |_, multiplier| Refusal::MulRange(multiplier);
        words_or(refused, |out| raw::pll_mul(pll_mul, out)).map(Self::of)
    }

    /// The setting for the multiplier target/crystal, rounded down. Refusals: [`Refusal::ZeroInput`],
    /// [`Refusal::MulRange`].
    ///
    /// ```
    /// use ogruspinu::{Refusal, pll_settings::PllConfig, time::Hertz};
    ///
    /// let (crystal, target) = (Hertz::from_raw(33_333_333), Hertz::from_raw(1_333_333_319));
    /// assert_eq!(PllConfig::new_from_target_clock(crystal, target)?.fdiv(), 39);
    /// let none = PllConfig::new_from_target_clock(Hertz::from_raw(0), target);
    /// assert_eq!(none, Err(Refusal::ZeroInput));
    /// # Ok::<(), Refusal>(())
    /// ```
    #[inline]
    pub fn new_from_target_clock(ps_clk: Hertz, target_clk: Hertz) -> Result<Self, Refusal> {
        let refused = |number, multiplier| match number {
            4 => Refusal::ZeroInput,
            _ => Refusal::MulRange(multiplier),
        };
        let (crystal, target) = (ps_clk.to_raw(), target_clk.to_raw());
        words_or(refused, |out| raw::pll_target(crystal, target, out)).map(Self::of)
    }

    /// A setting as it is; what is too wide for its field is refused when a sequence starts.
    #[inline]
    pub const fn new_raw(fdiv: u8, charge_pump: u8, loop_resistor: u8, lock_count: u16) -> Self {
        Self {
            fdiv,
            charge_pump,
            loop_resistor,
            lock_count,
        }
    }

    #[inline]
    fn of([fdiv, charge_pump, loop_resistor, lock_count]: [u32; 4]) -> Self {
        let lock_count = lock_count as u16;
        Self::new_raw(
            fdiv as u8,
            charge_pump as u8,
            loop_resistor as u8,
            lock_count,
        )
    }

    /// The multiplier.
    #[inline]
    pub const fn fdiv(&self) -> u8 {
        self.fdiv
    }

    #[inline]
    pub const fn charge_pump(&self) -> u8 {
        self.charge_pump
    }

    #[inline]
    pub const fn loop_resistor(&self) -> u8 {
        self.loop_resistor
    }

    #[inline]
    pub const fn lock_count(&self) -> u16 {
        self.lock_count
    }
}
