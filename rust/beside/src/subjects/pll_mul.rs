//! The PLL setting of a multiplier.
use crate::answer::Answer;
use crate::bench::Timed;
use crate::generate::{Numbers, around, grid};
use crate::rng::Rng;
use crate::subject::{About, Fault, Subject};
use original::Refused;

pub struct PllMul;

impl Subject for PllMul {
    fn about(&self) -> About {
        About {
            name: "pll-mul",
            stream: 5,
            list: Some([usize::MAX, 1_101, 100]),
        }
    }

    /// A multiplier in range, cut to eight bits or less, must not pass for itself.
    fn edges(&self) -> Vec<Numbers> {
        let bits = [7, 8, 16, 31].into_iter();
        let wide = bits.flat_map(|bit| around((1 << bit) + 13));
        let all = wide.chain([12, 13, 66, 67, u32::MAX]);
        all.map(|multiplier| vec![multiplier]).collect()
    }

    fn small(&self) -> Vec<Numbers> {
        grid([0..=1_100])
    }

    fn random(&self, rng: &Rng) -> Numbers {
        vec![rng.magnitude(32)]
    }

    fn ruled(&self, _n: &[u32]) -> Option<Answer> {
        None
    }

    fn original(&self, n: &[u32]) -> Answer {
        setting(original::mul_setting(n[0]).map(original::fields))
    }

    #[cfg(archive)]
    fn ours(&self, n: &[u32]) -> Answer {
        crate::lent::words::<4>(|out| ogruspinu::raw::pll_mul(n[0], out))
    }

    fn faults(&self) -> Vec<Fault> {
        vec![Fault("LastOfTableLeftOut", |n| {
            without_the_last(PllMul.judged(n).0)
        })]
    }

    fn rust_timed(&self) -> Option<Timed> {
        Some(|inputs| inputs.each(|n| original::mul_setting(n[0]).is_ok().into()))
    }

    #[cfg(archive)]
    fn ours_timed(&self) -> Option<Timed> {
        use ogruspinu::pll_settings::PllConfig;
        Some(|inputs| inputs.each(|n| PllConfig::new(n[0]).is_ok().into()))
    }
}

pub fn setting(found: Result<original::Setting, Refused>) -> Answer {
    match found {
        Ok(numbers) => Answer::given(numbers),
        Err(Refused::ZeroInput) => Answer::refused(4),
        Err(Refused::Multiplier(multiplier)) => Answer::carrying(5, multiplier),
    }
}

/// A table that ends with 65.
pub fn without_the_last(answer: Answer) -> Answer {
    match answer.numbers.first() {
        Some(66) => Answer::carrying(5, 66),
        _ => answer,
    }
}
