//! The PLL setting that comes nearest to a target from below: crystal, target.
use super::pll_mul::{setting, without_the_last};
use crate::answer::Answer;
use crate::bench::Timed;
use crate::generate::{Numbers, around, grid};
use crate::rng::Rng;
use crate::subject::{About, Fault, Subject};

pub struct PllTarget;

impl Subject for PllTarget {
    fn about(&self) -> About {
        About {
            name: "pll-target",
            stream: 6,
            list: Some([usize::MAX, 300, 400]),
        }
    }

    fn edges(&self) -> Vec<Numbers> {
        let named = [[0, 0], [0, u32::MAX], [u32::MAX, u32::MAX], [1, u32::MAX]];
        let mut all: Vec<Numbers> = named.map(Vec::from).into();
        for crystal in [1, 2, 3, 1_000, 33_333_333, 50_000_000, 65_000_000] {
            for multiplier in 12..=67 {
                let targets = around(u64::from(crystal) * multiplier).into_iter();
                all.extend(targets.map(|target| vec![crystal, target]));
            }
        }
        all
    }

    fn small(&self) -> Vec<Numbers> {
        grid([0..=6, 0..=420])
    }

    fn random(&self, rng: &Rng) -> Numbers {
        let crystal = rng.magnitude(32);
        let target = match rng.below(3) {
            0 => rng.magnitude(32),
            _ => rng.near(crystal.saturating_mul(rng.within(11, 68))),
        };
        vec![crystal, target]
    }

    fn ruled(&self, _n: &[u32]) -> Option<Answer> {
        None
    }

    fn original(&self, n: &[u32]) -> Answer {
        setting(original::target_setting(n[0], n[1]).map(original::fields))
    }

    #[cfg(archive)]
    fn ours(&self, n: &[u32]) -> Answer {
        crate::lent::words::<4>(|out| ogruspinu::raw::pll_target(n[0], n[1], out))
    }

    fn faults(&self) -> Vec<Fault> {
        vec![Fault("LastOfTableLeftOut", |n| {
            without_the_last(PllTarget.judged(n).0)
        })]
    }

    fn rust_timed(&self) -> Option<Timed> {
        Some(|inputs| inputs.each(|n| original::target_setting(n[0], n[1]).is_ok().into()))
    }

    #[cfg(archive)]
    fn ours_timed(&self) -> Option<Timed> {
        use ogruspinu::{pll_settings::PllConfig, time::Hertz};
        Some(|inputs| {
            inputs.each(|n| {
                let (crystal, target) = (Hertz::from_raw(n[0]), Hertz::from_raw(n[1]));
                PllConfig::new_from_target_clock(crystal, target)
                    .is_ok()
                    .into()
            })
        })
    }
}
