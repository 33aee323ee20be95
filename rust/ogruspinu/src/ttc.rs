//! The triple timer counter's prescaler and interval.
use crate::raw;
use crate::refusal::{Refusal, words};
use crate::time::Hertz;

/// The prescaler field, if one is needed, and the ticks of the interval: the reference over 2^k times the frequency, with
/// the least k for which it fits 16 bits; the field is k - 1. Refusal: [`Refusal::ZeroTarget`].
///
/// ```
/// use ogruspinu::{Refusal, time::Hertz, ttc::calc_prescaler_reg_and_interval_ticks};
///
/// let hertz = Hertz::from_raw;
/// let whole = calc_prescaler_reg_and_interval_ticks(hertz(65_535), hertz(1))?;
/// assert_eq!(whole, (None, 65_535));
/// let halved = calc_prescaler_reg_and_interval_ticks(hertz(65_536), hertz(1))?;
/// assert_eq!(halved, (Some(0), 32_768));
/// # Ok::<(), Refusal>(())
/// ```
#[inline]
pub fn calc_prescaler_reg_and_interval_ticks(
    ref_clk: Hertz,
    freq: Hertz,
) -> Result<(Option<u8>, u16), Refusal> {
    let [k, ticks] = words(|out| raw::ttc(ref_clk.to_raw(), freq.to_raw(), out))?;
    Ok(((k as u8).checked_sub(1), ticks as u16))
}
