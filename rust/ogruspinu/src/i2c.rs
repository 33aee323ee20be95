//! I2C divisors: the bus runs at the CPU's 1x clock over 22 (div_a + 1) (div_b + 1).
use crate::raw;
use crate::refusal::{Refusal, words};
use crate::time::Hertz;

/// How fast the bus is to run.
#[derive(Clone, Copy, Debug, PartialEq, Eq)]
pub enum Speed {
    /// At 100,000 Hz.
    Normal100kHz,
    /// At 400,000 Hz.
    HighSpeed400KHz,
}

/// In Hertz, for each [`Speed`] in its order: what the bus is said to run at, and what the search aims at.
const NOMINAL: [u32; 2] = [100_000, 400_000];
const AIM: [u32; 2] = [90_000, 384_600];

impl Speed {
    /// What the bus is said to run at.
    ///
    /// ```
    /// use ogruspinu::i2c::Speed;
    ///
    /// assert_eq!(Speed::HighSpeed400KHz.frequency_full_number().to_raw(), 400_000);
    /// ```
    pub const fn frequency_full_number(&self) -> Hertz {
        Hertz::from_raw(NOMINAL[*self as usize])
    }

    /// The frequency that [`calculate_divisors`] comes as near to as it can.
    ///
    /// ```
    /// use ogruspinu::i2c::Speed;
    ///
    /// assert_eq!(Speed::HighSpeed400KHz.frequency_for_calculation().to_raw(), 384_600);
    /// ```
    pub const fn frequency_for_calculation(&self) -> Hertz {
        Hertz::from_raw(AIM[*self as usize])
    }
}

/// What the two divisor fields hold: each divisor less one.
#[derive(Clone, Copy, Debug, PartialEq, Eq)]
pub struct ClockConfig {
    div_a: u8,
    div_b: u8,
}

impl ClockConfig {
    /// Of what the fields hold.
    #[inline]
    pub const fn new(div_a: u8, div_b: u8) -> Self {
        Self { div_a, div_b }
    }

    /// The first field.
    #[inline]
    pub const fn div_a(&self) -> u8 {
        self.div_a
    }

    /// The second field.
    #[inline]
    pub const fn div_b(&self) -> u8 {
        self.div_b
    }
}

/// The speed that register values give.
///
/// ```
/// use ogruspinu::{i2c::{ClockConfig, calculate_i2c_speed}, time::Hertz};
///
/// let speed = calculate_i2c_speed(Hertz::from_raw(111_111_111), ClockConfig::new(0, 55));
/// assert_eq!(speed.to_raw(), 90_187);
/// ```
#[inline]
pub fn calculate_i2c_speed(cpu_1x_clk: Hertz, clk_config: ClockConfig) -> Hertz {
    let ClockConfig { div_a, div_b } = clk_config;
    Hertz::from_raw(raw::i2c_speed(cpu_1x_clk.to_raw(), div_a, div_b))
}

/// The divisors whose speed is nearest to [`Speed::frequency_for_calculation`]; ties go to the smaller first divisor,
/// then to the smaller second. Refusal: [`Refusal::Speed`].
///
/// ```
/// use ogruspinu::{Refusal, i2c::{Speed, calculate_divisors}, time::Hertz};
///
/// let config = calculate_divisors(Hertz::from_raw(111_111_111), Speed::Normal100kHz)?;
/// assert_eq!((config.div_a(), config.div_b()), (0, 55));
/// let too_fast = calculate_divisors(Hertz::from_raw(506_880_001), Speed::Normal100kHz);
/// assert_eq!(too_fast, Err(Refusal::Speed));
/// # Ok::<(), Refusal>(())
/// ```
#[inline]
pub fn calculate_divisors(cpu_1x_clk: Hertz, speed: Speed) -> Result<ClockConfig, Refusal> {
    let fast = speed == Speed::HighSpeed400KHz;
    let [div_a, div_b] = words(|out| raw::i2c(cpu_1x_clk.to_raw(), fast, out))?;
    Ok(ClockConfig::new(div_a as u8, div_b as u8))
}
