//! The TTC's prescaler and ticks: reference, frequency. It gives k, 0 for no prescaler, and the ticks.
use crate::answer::Answer;
use crate::bench::Timed;
use crate::generate::{Numbers, around, grid};
use crate::rng::Rng;
use crate::subject::{About, Fault, Subject};

pub struct Ttc;

impl Subject for Ttc {
    fn about(&self) -> About {
        About {
            name: "ttc",
            stream: 4,
            list: Some([usize::MAX, 400, 400]),
        }
    }

    fn edges(&self) -> Vec<Numbers> {
        let named = [
            [u32::MAX, 1],
            [10, 11],
            [u32::MAX, u32::MAX],
            [0, 1],
            [1, 0],
        ];
        let mut all: Vec<Numbers> = named.map(Vec::from).into();
        // Where the ticks stop to fit: for each shift, around 65,535 and 65,536 of them.
        for shift in 0..=16 {
            for frequency in [1, 2, 3, 7, 1_000, 44_100, 65_535, 65_536, 12_288_000] {
                for ticks in [65_535u64, 65_536] {
                    let inputs = around((ticks * frequency) << shift).into_iter();
                    all.extend(inputs.map(|input| vec![input, frequency as u32]));
                }
            }
        }
        all
    }

    fn small(&self) -> Vec<Numbers> {
        grid([0..=200, 0..=24])
    }

    fn random(&self, rng: &Rng) -> Numbers {
        let frequency = rng.magnitude(32);
        let reference = match rng.below(2) {
            0 => rng.magnitude(32),
            _ => rng.near(frequency.wrapping_mul(rng.magnitude(17))),
        };
        vec![reference, frequency]
    }

    fn ruled(&self, n: &[u32]) -> Option<Answer> {
        (n[1] == 0).then(|| Answer::refused(6))
    }

    fn original(&self, n: &[u32]) -> Answer {
        let (prescaler, ticks) = original::ttc_interval(n[0], n[1]);
        let k = prescaler.map_or(0, |field| u32::from(field) + 1);
        Answer::given([k, ticks.into()])
    }

    #[cfg(archive)]
    fn ours(&self, n: &[u32]) -> Answer {
        crate::lent::words::<2>(|out| ogruspinu::raw::ttc(n[0], n[1], out))
    }

    fn faults(&self) -> Vec<Fault> {
        vec![Fault("TicksOf65536", |n| {
            let mut answer = Ttc.judged(n).0;
            if answer.numbers[..] == [1, 32_768] {
                answer.numbers = vec![0, 65_536];
            }
            answer
        })]
    }

    fn given(&self, numbers: &[u32]) -> String {
        match numbers[0].checked_sub(1) {
            Some(prescaler) => format!("{prescaler} {}", numbers[1]),
            None => format!("none {}", numbers[1]),
        }
    }

    fn rust_timed(&self) -> Option<Timed> {
        Some(|inputs| inputs.each(|n| original::ttc_interval(n[0], n[1]).1.into()))
    }

    #[cfg(archive)]
    fn ours_timed(&self) -> Option<Timed> {
        use ogruspinu::{time::Hertz, ttc::calc_prescaler_reg_and_interval_ticks};
        Some(|inputs| {
            inputs.each(|n| {
                let (reference, frequency) = (Hertz::from_raw(n[0]), Hertz::from_raw(n[1]));
                let interval = calc_prescaler_reg_and_interval_ticks(reference, frequency);
                interval.map_or(0, |(_, ticks)| ticks.into())
            })
        })
    }
}
