//! Stand-in for `libm`: `roundf` from its definition.

/// From this magnitude on every `f32` is a whole number.
const WHOLE: f32 = 8_388_608.0;

/// The nearest whole number, halves away from zero; the sign is kept, infinities and NaN are themselves.
#[inline]
pub fn roundf(x: f32) -> f32 {
    if x.is_nan() || x.abs() >= WHOLE {
        return x;
    }
    // Below WHOLE the cast drops the fraction and nothing else, and the difference is the exact fraction.
    let whole = x.abs() as u32 as f32;
    let fraction = x.abs() - whole;
    let up = if fraction >= 0.5 { 1.0 } else { 0.0 };
    (whole + up).copysign(x)
}

#[cfg(test)]
mod tests {
    use super::roundf;

    /// The definition over `f64`, where every `f32` plus a half is exact below 2^52.
    fn defined(x: f32) -> f32 {
        let wide = f64::from(x);
        if !wide.is_finite() || wide.abs() >= 4_294_967_296.0 {
            return x;
        }
        ((wide.abs() + 0.5).floor() as f32).copysign(x)
    }

    fn agree(bits: u32) {
        let x = f32::from_bits(bits);
        let (ours, theirs) = (roundf(x), defined(x));
        assert!(
            ours.to_bits() == theirs.to_bits() || x.is_nan() && ours.is_nan(),
            "{x} ({bits:#010x})"
        );
    }

    #[test]
    fn every_thousandth_float() {
        (0..=u32::MAX).step_by(997).for_each(agree);
    }

    #[test]
    #[ignore = "all four thousand million floats"]
    fn every_float() {
        (0..=u32::MAX).for_each(agree);
    }

    #[test]
    fn halves_and_their_neighbours() {
        for n in 0..70_000u32 {
            let half = (n as f32 + 0.5).to_bits();
            (half - 1..=half + 1).for_each(agree);
        }
    }
}
