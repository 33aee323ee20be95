//! The pure part of the DDR's set-up: reference, 3x divisor, 2x divisor. It gives 3x and 2x.
use super::cpu_init::plain_divisors;
use crate::answer::Answer;
use crate::bench::Timed;
use crate::generate::{Numbers, at_both_ends, grid};
use crate::rng::Rng;
use crate::subject::{About, Subject};

/// The module that a divisor 0 is told with.
const DDR: u32 = 1;

pub struct DdrInit;

impl Subject for DdrInit {
    fn about(&self) -> About {
        About {
            name: "ddr-init",
            stream: 13,
            list: Some([150, 200, 200]),
        }
    }

    fn edges(&self) -> Vec<Numbers> {
        at_both_ends(&grid([0..=65, 62..=65]))
    }

    fn small(&self) -> Vec<Numbers> {
        grid([0..=12, 0..=12, 0..=12])
    }

    fn random(&self, rng: &Rng) -> Numbers {
        vec![rng.magnitude(32), rng.within(0, 64), rng.within(0, 64)]
    }

    fn ruled(&self, n: &[u32]) -> Option<Answer> {
        plain_divisors(&n[1..], DDR)
    }

    fn original(&self, n: &[u32]) -> Answer {
        Answer::given(original::ddr_init(n[0], n[1], n[2]))
    }

    #[cfg(archive)]
    fn ours(&self, n: &[u32]) -> Answer {
        crate::lent::words::<2>(|out| ogruspinu::raw::ddr_init(n[0], n[1], n[2], out))
    }

    fn rust_timed(&self) -> Option<Timed> {
        Some(|inputs| inputs.each(|n| original::ddr_init(n[0], n[1], n[2])[0]))
    }

    #[cfg(archive)]
    fn ours_timed(&self) -> Option<Timed> {
        use ogruspinu::{clock_setup::new_with_2x_3x_init, time::Hertz};
        Some(|inputs| {
            inputs.each(|n| {
                let ddr = new_with_2x_3x_init(Hertz::from_raw(n[0]), n[1], n[2]);
                ddr.map_or(0, |ddr| ddr.ddr_3x_clk().to_raw())
            })
        })
    }
}
