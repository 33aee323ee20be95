//! Two-stage dividers: those of the PL clocks, whose frequency is the reference over the product of two divisors.
use crate::raw;
use crate::refusal::{Refusal, words};
use crate::time::Hertz;

/// The divisors that [`find_two_stage_divisors`] finds.
#[derive(Clone, Copy, Debug, PartialEq, Eq)]
pub struct DivisorPair {
    /// That of the first stage.
    pub div0: u32,
    /// That of the second stage.
    pub div1: u32,
}

/// The pair in `1..=max_divisor` whose frequency is nearest to `target`: proved, nothing is nearer.
///
/// Ties go to the smallest `div0`; then, if any is not below the target, to the largest `div1` of those, else to the
/// smallest `div1`. Refusals: [`Refusal::ZeroTarget`], then [`Refusal::BadMax`].
///
/// ```
/// use ogruspinu::{Refusal, time::Hertz, two_stage};
///
/// let (reference, target) = (Hertz::from_raw(1_000_000_000), Hertz::from_raw(12_288_000));
/// let pair = two_stage::find_two_stage_divisors(reference, target, 63)?;
/// assert_eq!((pair.div0, pair.div1), (3, 27));
/// let nobody = two_stage::find_two_stage_divisors(reference, Hertz::from_raw(0), 63);
/// assert_eq!(nobody, Err(Refusal::ZeroTarget));
/// # Ok::<(), Refusal>(())
/// ```
#[inline]
pub fn find_two_stage_divisors(
    ref_in: Hertz,
    target: Hertz,
    max_divisor: u32,
) -> Result<DivisorPair, Refusal> {
    let (reference, target) = (ref_in.to_raw(), target.to_raw());
    let [div0, div1] = words(|out| raw::two_stage(reference, target, max_divisor, out))?;
    Ok(DivisorPair { div0, div1 })
}

/// The frequency that a pair gives, 0 where one of its divisors is 0.
///
/// ```
/// use ogruspinu::{time::Hertz, two_stage::{DivisorPair, two_stage_frequency}};
///
/// let pair = DivisorPair { div0: 3, div1: 27 };
/// let frequency = two_stage_frequency(Hertz::from_raw(1_000_000_000), pair);
/// assert_eq!(frequency.to_raw(), 12_345_679);
/// ```
#[inline]
pub fn two_stage_frequency(ref_in: Hertz, pair: DivisorPair) -> Hertz {
    let DivisorPair { div0, div1 } = pair;
    Hertz::from_raw(raw::two_stage_frequency(ref_in.to_raw(), div0, div1))
}
