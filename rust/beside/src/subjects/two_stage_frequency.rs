//! The frequency of a pair of divisors: reference, first divisor, second. The original has no such call, so that document 01's
//! formula in wider numbers is the judge: the reference over the product, and 0 where a divisor is 0.
use crate::answer::Answer;
use crate::generate::{Numbers, around, grid};
use crate::rng::Rng;
use crate::subject::{About, Fault, Subject};

pub struct TwoStageFrequency;

impl Subject for TwoStageFrequency {
    fn about(&self) -> About {
        About {
            name: "two-stage-frequency",
            stream: 16,
            list: None,
        }
    }

    fn edges(&self) -> Vec<Numbers> {
        const MAX: u32 = u32::MAX;
        let mut all = vec![vec![1_000_000_000, 3, 27]];
        // Divisors whose product is just what 32 bits hold, or just more, and then no quotient at all.
        let divisors = [0, 1, 2, 3, 27, 63, 64, 65_535, 65_536, 65_537, MAX - 1, MAX];
        for first in divisors {
            for second in divisors {
                let product = u64::from(first) * u64::from(second);
                let references = [
                    around(product),
                    around(2 * product.min(1 << 32)),
                    vec![0, MAX - 1, MAX],
                ];
                all.extend(
                    references
                        .concat()
                        .iter()
                        .map(|&reference| vec![reference, first, second]),
                );
            }
        }
        all
    }

    fn small(&self) -> Vec<Numbers> {
        grid([0..=40, 0..=8, 0..=8])
    }

    fn random(&self, rng: &Rng) -> Numbers {
        let (first, second) = (rng.magnitude(32), rng.magnitude(32));
        let product = u64::from(first) * u64::from(second);
        let multiple = product.saturating_mul(rng.magnitude(8).into());
        let reference = match rng.below(2) {
            0 => rng.magnitude(32),
            _ => rng.near(multiple.min(u32::MAX.into()) as u32),
        };
        vec![reference, first, second]
    }

    fn has_original(&self) -> bool {
        false
    }

    fn ruled(&self, n: &[u32]) -> Option<Answer> {
        let product = u64::from(n[1]) * u64::from(n[2]);
        let hertz = u64::from(n[0]).checked_div(product).unwrap_or(0);
        Some(Answer::given([hertz as u32]))
    }

    fn original(&self, _n: &[u32]) -> Answer {
        unreachable!("everything is ruled")
    }

    #[cfg(archive)]
    fn ours(&self, n: &[u32]) -> Answer {
        Answer::given([ogruspinu::raw::two_stage_frequency(n[0], n[1], n[2])])
    }

    fn faults(&self) -> Vec<Fault> {
        vec![
            Fault("ProductOf32Bits", |n| {
                let hertz = n[0].checked_div(n[1].wrapping_mul(n[2]));
                Answer::given([hertz.unwrap_or(0)])
            }),
            Fault("SecondDivisorZeroIsNone", |n| {
                Answer::given([n[0]
                    .checked_div(n[1])
                    .map_or(0, |hertz| hertz / n[2].max(1))])
            }),
            Fault("RoundedUp", |n| {
                let product = u64::from(n[1]) * u64::from(n[2]);
                let up = (product > 0).then(|| u64::from(n[0]).div_ceil(product));
                Answer::given([up.unwrap_or(0) as u32])
            }),
        ]
    }
}
