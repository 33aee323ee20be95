//! The reference clocks of both Ethernet controllers: of an evaluated record and of the controller's register word.
use crate::clocks::Clocks;
use crate::raw;
use crate::refusal::{Refusal, words};
use crate::time::Hertz;

/// Ethernet 0's, whose word is 16 of an image. Refusal: [`Refusal::DivisorZero`] of Gem0.
///
/// ```
#[doc = include_str!("clocks/plain_image.txt")]
/// use ogruspinu::gem::calculate_gem_0_ref_clock;
///
/// let clocks = Clocks::new_from_regs(Hertz::from_raw(1_000_000_000), &image)?;
/// // The IO PLL over 8 and 5.
/// assert_eq!(calculate_gem_0_ref_clock(&clocks, 0x0050_0800)?.to_raw(), 25_000_000);
/// let zero = calculate_gem_0_ref_clock(&clocks, 0x0000_0800);
/// assert_eq!(zero, Err(Refusal::DivisorZero(ClockModuleId::Gem0)));
/// # Ok::<(), Refusal>(())
/// ```
#[inline]
pub fn calculate_gem_0_ref_clock(clocks: &Clocks, word: u32) -> Result<Hertz, Refusal> {
    gem(false, clocks, word)
}

/// Ethernet 1's, whose word is 17 of an image. Refusal: [`Refusal::DivisorZero`] of Gem1.
///
/// ```
#[doc = include_str!("clocks/plain_image.txt")]
/// use ogruspinu::gem::calculate_gem_1_ref_clock;
///
/// let clocks = Clocks::new_from_regs(Hertz::from_raw(1_000_000_000), &image)?;
/// assert_eq!(calculate_gem_1_ref_clock(&clocks, 0x0020_0400)?.to_raw(), 125_000_000);
/// let zero = calculate_gem_1_ref_clock(&clocks, 0x0020_0000);
/// assert_eq!(zero, Err(Refusal::DivisorZero(ClockModuleId::Gem1)));
/// # Ok::<(), Refusal>(())
/// ```
#[inline]
pub fn calculate_gem_1_ref_clock(clocks: &Clocks, word: u32) -> Result<Hertz, Refusal> {
    gem(true, clocks, word)
}

#[inline]
fn gem(second: bool, clocks: &Clocks, word: u32) -> Result<Hertz, Refusal> {
    let [hertz] = words(|out| raw::gem(second, word, clocks.row(), out))?;
    Ok(Hertz::from_raw(hertz))
}
