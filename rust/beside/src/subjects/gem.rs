//! The reference clock of an Ethernet controller: 0 or 1, crystal, the image's words.
use super::{bypass, image};
use crate::answer::Answer;
use crate::bench::Timed;
use crate::generate::{Numbers, after, grid};
use crate::rng::Rng;
use crate::subject::{About, Fault, Subject};

/// Where a request has the word of GEM 0; that of GEM 1 is the next.
const WORD: usize = 2 + 16;

pub struct Gem;

impl Subject for Gem {
    fn about(&self) -> About {
        About {
            name: "gem",
            stream: 10,
            list: Some([60, 64, 150]),
        }
    }

    fn edges(&self) -> Vec<Numbers> {
        after(&grid([0..=1]), &image::edges())
    }

    fn small(&self) -> Vec<Numbers> {
        after(&grid([0..=1]), &words_small())
    }

    fn random(&self, rng: &Rng) -> Numbers {
        [vec![rng.below(2)], image::random(rng)].concat()
    }

    fn ruled(&self, n: &[u32]) -> Option<Answer> {
        image::ruled(&n[1..])
    }

    fn instead(&self, n: &[u32]) -> Option<Numbers> {
        bypass::instead(n, 1)
    }

    fn original(&self, n: &[u32]) -> Answer {
        let clock = original::gem(n[0] == 1, n[1], image::words(&n[2..]));
        image::evaluated(clock.map(|clock| [clock]))
    }

    #[cfg(archive)]
    fn ours(&self, n: &[u32]) -> Answer {
        ours(n[0], &n[1..])
    }

    fn faults(&self) -> Vec<Fault> {
        vec![
            Fault("GemStopsUnderEmio", |n| match n.get(WORD) {
                Some(word) if word & 0x40 != 0 => Answer::given([0]),
                _ => Gem.judged(n).0,
            }),
            Fault("GemKnowsNoBypass", |n| {
                Gem.judged(&bypass::with_controls(n, 1, |control| {
                    control & !bypass::FORCE
                }))
                .0
            }),
        ]
    }

    fn request(&self, n: &[u32]) -> String {
        self.with_words(n, 2)
    }

    fn rust_timed(&self) -> Option<Timed> {
        Some(|inputs| {
            inputs.each(|n| original::gem(n[0] == 1, n[1], image::words(&n[2..])).unwrap_or(0))
        })
    }

    /// With the evaluation before it, as the original's is timed.
    #[cfg(archive)]
    fn ours_timed(&self) -> Option<Timed> {
        use ogruspinu::gem::{calculate_gem_0_ref_clock, calculate_gem_1_ref_clock};
        use ogruspinu::{clocks::Clocks, time::Hertz};
        Some(|inputs| {
            inputs.each(|n| {
                let clock = Clocks::new_from_regs(Hertz::from_raw(n[1]), &n[2..]);
                let clock = clock.and_then(|clocks| match n[0] {
                    0 => calculate_gem_0_ref_clock(&clocks, n[WORD]),
                    _ => calculate_gem_1_ref_clock(&clocks, n[WORD + 1]),
                });
                clock.map_or(0, Hertz::to_raw)
            })
        })
    }
}

/// Every source and EMIO bit with small divisors, in the words of both.
fn words_small() -> Vec<Numbers> {
    let mut all = Vec::new();
    for n in grid([0..=7, 0..=3, 0..=3]) {
        let word = n[0] << 4 | n[1] << 8 | n[2] << 20;
        let mut numbers = image::typical();
        numbers[1 + 16..=1 + 17].fill(word);
        all.push(numbers);
    }
    all
}

/// Of an evaluation's row and of the image's word. A row of clocks too short is refused before all else.
#[cfg(archive)]
fn ours(which: u32, image: &[u32]) -> Answer {
    use super::clocks::Clocks;
    use crate::answer::CRAMPED;
    use ogruspinu::raw;
    let evaluated = Clocks.ours(image);
    if evaluated.refused != 0 {
        return evaluated;
    }
    let row = &evaluated.numbers[..];
    let word = image[1 + 16 + which as usize];
    let gem = |clocks: &[u32], out: &mut [u32]| raw::gem(which == 1, word, clocks, out);
    let short = gem(&row[1..], &mut []);
    if raw::halves(short) != (9, row.len() as u32) {
        return Answer::amiss(CRAMPED, row);
    }
    crate::lent::words::<1>(|out| gem(row, out))
}
