//! The two-stage search again, with largest divisors that make it long.
use super::two_stage::TwoStage;
use crate::answer::Answer;
use crate::bench::Timed;
use crate::generate::Numbers;
use crate::rng::Rng;
use crate::subject::{About, Subject};

pub struct TwoStageLarge;

impl Subject for TwoStageLarge {
    fn about(&self) -> About {
        About {
            name: "two-stage-large",
            stream: 1,
            list: None,
        }
    }

    /// Largest divisors of 13 to 20 bits, and targets that are seldom hit at once.
    fn random(&self, rng: &Rng) -> Numbers {
        let largest = rng.word() >> rng.within(12, 19);
        let reference = rng.word() | 1 << 31;
        let target = match rng.below(3) {
            0 => rng.magnitude(32),
            _ => rng.near(reference / rng.within(1, largest)),
        };
        vec![reference, target.max(1), largest]
    }

    fn rarity(&self) -> usize {
        20_000
    }

    fn affordable(&self, n: &[u32]) -> bool {
        TwoStage.affordable(n)
    }

    fn ruled(&self, n: &[u32]) -> Option<Answer> {
        TwoStage.ruled(n)
    }

    fn original(&self, n: &[u32]) -> Answer {
        TwoStage.original(n)
    }

    #[cfg(archive)]
    fn ours(&self, n: &[u32]) -> Answer {
        TwoStage.ours(n)
    }

    fn rust_timed(&self) -> Option<Timed> {
        TwoStage.rust_timed()
    }

    #[cfg(archive)]
    fn ours_timed(&self) -> Option<Timed> {
        TwoStage.ours_timed()
    }
}
