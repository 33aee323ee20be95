//! The exact ratios of the four PL clocks: crystal, the image's words. The original has no such call, so that document 02's words
//! are the judge (ratios_by_hand.rs); whether the image is refused the judge of `clocks` says first.
use super::clocks::Clocks;
use super::ratios_by_hand::{self as by_hand, Clock, lowest, table};
use super::{bypass, image};
use crate::answer::Answer;
use crate::bench::Timed;
use crate::generate::{Numbers, grid};
use crate::rng::Rng;
use crate::subject::{About, By, Fault, Subject};

pub struct Ratios;

impl Subject for Ratios {
    fn about(&self) -> About {
        About {
            name: "ratios",
            stream: 17,
            list: Some([120, 100, 180]),
        }
    }

    fn edges(&self) -> Vec<Numbers> {
        let mut all = vec![by_hand::near_48_khz()];
        all.extend(by_hand::sources_and_products());
        all.extend(image::edges());
        all
    }

    /// Two clocks with small divisors from any two sources, and every single field of an image.
    fn small(&self) -> Vec<Numbers> {
        let two = |n: Numbers| {
            let words = [(n[0], n[1], n[2]), (n[3], n[4], n[5])];
            let words = words.map(|(source, first, second)| by_hand::word(source, first, second));
            by_hand::with_words(&by_hand::base(), &words)
        };
        let two = grid([0..=3, 1..=3, 1..=3, 0..=3, 1..=3, 1..=3])
            .into_iter()
            .map(two);
        two.chain(image::small()).collect()
    }

    fn random(&self, rng: &Rng) -> Numbers {
        match rng.below(4) {
            0 => image::random(rng),
            _ => by_hand::random(rng),
        }
    }

    fn has_original(&self) -> bool {
        false
    }

    fn judged(&self, n: &[u32]) -> (Answer, By) {
        let (evaluated, by) = Clocks.judged(n);
        match (evaluated.refused, n[0]) {
            (0, 0) => (Answer::refused(14), By::Rule),
            (0, _) => (table(n, Clock::to), By::Rule),
            _ => (evaluated, by),
        }
    }

    fn ruled(&self, n: &[u32]) -> Option<Answer> {
        Some(self.judged(n).0)
    }

    fn original(&self, _n: &[u32]) -> Answer {
        unreachable!("everything is ruled")
    }

    #[cfg(archive)]
    fn ours(&self, n: &[u32]) -> Answer {
        crate::lent::row::<u64, 32>(|out| ogruspinu::raw::ratios(n[0], &n[1..], out))
    }

    fn faults(&self) -> Vec<Fault> {
        vec![
            Fault("RatioOfWholeHertz", |n| {
                slipped(n, |a, b| lowest(a.hertz(), b.hertz()))
            }),
            Fault("RatioNotReduced", |n| {
                slipped(n, |a, b| (a.source * b.product, b.source * a.product))
            }),
            Fault("RowAndColumnExchanged", |n| slipped(n, |a, b| b.to(a))),
            Fault("SecondDivisorLeftOut", |n| {
                slipped(n, |a, b| a.with_one_divisor().to(b.with_one_divisor()))
            }),
            Fault("ZeroClockBeforeEvaluation", |n| match n[0] {
                0 => Answer::refused(14),
                _ => Ratios.judged(n).0,
            }),
            Fault("ZeroClockNotRefused", |n| match Ratios.judged(n).0 {
                answer if answer.refused == 14 => table(n, |_, _| (0, 0)),
                answer => answer,
            }),
            Fault("RatiosKnowNoBypass", |n| {
                let plain = bypass::with_controls(n, 0, |control| control & !bypass::FORCE);
                match Ratios.judged(n).0 {
                    answer if answer.refused == 0 => table(&plain, Clock::to),
                    answer => answer,
                }
            }),
        ]
    }

    fn request(&self, n: &[u32]) -> String {
        self.with_words(n, 1)
    }

    fn given(&self, numbers: &[u32]) -> String {
        let numbers: Vec<u64> = by_hand::wide(numbers).collect();
        let ratios = numbers.chunks(2).map(|n| format!("{}:{}", n[0], n[1]));
        ratios.collect::<Vec<String>>().join(" ")
    }

    fn is_timed(&self, n: &[u32]) -> bool {
        self.judged(n).0.refused == 0
    }

    /// Document 02's words, as the driver has them.
    fn rust_timed(&self) -> Option<Timed> {
        Some(|inputs| {
            inputs.each(|n| {
                let numbers = table(n, Clock::to).numbers;
                by_hand::wide(&numbers).fold(0, |sum, number| sum ^ number as u32)
            })
        })
    }

    #[cfg(archive)]
    fn ours_timed(&self) -> Option<Timed> {
        use ogruspinu::ratios::{Ratio, ratios};
        use ogruspinu::time::Hertz;
        Some(|inputs| {
            inputs.each(|n| {
                let sum = |table: [[Ratio; 4]; 4]| {
                    let numbers = table.as_flattened().iter();
                    let numbers = numbers.flat_map(|ratio| [ratio.num(), ratio.den()]);
                    numbers.fold(0, |sum, number| sum ^ number as u32)
                };
                ratios(Hertz::from_raw(n[0]), &n[1..]).map_or(0, sum)
            })
        })
    }
}

/// The right answer but for an entry's own slip.
fn slipped(n: &[u32], entry: fn(Clock, Clock) -> (u128, u128)) -> Answer {
    match Ratios.judged(n).0 {
        answer if answer.refused == 0 => table(n, entry),
        answer => answer,
    }
}
