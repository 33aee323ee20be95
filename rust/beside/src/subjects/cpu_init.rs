//! The pure part of the CPU's set-up: PLL, 0 for 4:2:1 or 1 for 6:2:1, divisor. It gives 1x, 2x, 3x2x and 6x4x.
use crate::answer::Answer;
use crate::bench::Timed;
use crate::generate::{Numbers, at_both_ends, grid};
use crate::rng::Rng;
use crate::subject::{About, Subject};

/// The module that a divisor 0 is told with.
const ARM: u32 = 2;

pub struct CpuInit;

impl Subject for CpuInit {
    fn about(&self) -> About {
        About {
            name: "cpu-init",
            stream: 12,
            list: Some([150, 200, 200]),
        }
    }

    fn edges(&self) -> Vec<Numbers> {
        at_both_ends(&grid([0..=1, 0..=65]))
    }

    fn small(&self) -> Vec<Numbers> {
        grid([0..=60, 0..=1, 0..=64])
    }

    fn random(&self, rng: &Rng) -> Numbers {
        vec![rng.magnitude(32), rng.below(2), rng.within(0, 64)]
    }

    fn ruled(&self, n: &[u32]) -> Option<Answer> {
        plain_divisors(&n[2..], ARM)
    }

    fn original(&self, n: &[u32]) -> Answer {
        Answer::given(original::cpu_init(n[0], n[1] == 1, n[2]))
    }

    #[cfg(archive)]
    fn ours(&self, n: &[u32]) -> Answer {
        crate::lent::words::<4>(|out| ogruspinu::raw::cpu_init(n[0], n[1] == 1, n[2], out))
    }

    fn rust_timed(&self) -> Option<Timed> {
        Some(|inputs| inputs.each(|n| original::cpu_init(n[0], n[1] == 1, n[2])[0]))
    }

    #[cfg(archive)]
    fn ours_timed(&self) -> Option<Timed> {
        use ogruspinu::clocks::CpuClockRatio::{FourToTwoToOne, SixToTwoToOne};
        use ogruspinu::{clock_setup::new_with_cpu_clock_init, time::Hertz};
        Some(|inputs| {
            inputs.each(|n| {
                let ratio = [FourToTwoToOne, SixToTwoToOne][usize::from(n[1] == 1)];
                let arm = new_with_cpu_clock_init(Hertz::from_raw(n[0]), ratio, n[2]);
                arm.map_or(0, |arm| arm.cpu_1x_clk().to_raw())
            })
        })
    }
}

/// Document 01's refusals of a plain divisor.
pub fn plain_divisors(divisors: &[u32], module: u32) -> Option<Answer> {
    if divisors.contains(&0) {
        return Some(Answer::carrying(2, module));
    }
    let wide = divisors.iter().any(|&divisor| divisor > 63);
    wide.then(|| Answer::refused(20))
}
