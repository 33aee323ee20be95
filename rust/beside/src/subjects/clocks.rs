//! The evaluation of an image: crystal, the image's words. It gives 26 numbers: the desk's 25, and behind the trace clock
//! whether it is EMIO's.
use super::bypass::{self, FORCE, bypassed, multiplier};
use super::image;
use crate::answer::Answer;
use crate::bench::Timed;
use crate::generate::Numbers;
use crate::rng::Rng;
use crate::subject::{About, Fault, Subject};
use original::EMIO;

pub struct Clocks;

impl Subject for Clocks {
    fn about(&self) -> About {
        About {
            name: "clocks",
            stream: 9,
            list: Some([800, 800, 1_200]),
        }
    }

    fn edges(&self) -> Vec<Numbers> {
        image::edges()
    }

    fn small(&self) -> Vec<Numbers> {
        image::small()
    }

    fn random(&self, rng: &Rng) -> Numbers {
        image::random(rng)
    }

    fn ruled(&self, n: &[u32]) -> Option<Answer> {
        image::ruled(n)
    }

    fn instead(&self, n: &[u32]) -> Option<Numbers> {
        bypass::instead(n, 0)
    }

    fn original(&self, n: &[u32]) -> Answer {
        image::evaluated(original::clocks(n[0], image::words(&n[1..])))
    }

    #[cfg(archive)]
    fn ours(&self, n: &[u32]) -> Answer {
        crate::lent::words::<{ original::CLOCK_NUMBERS }>(|out| {
            ogruspinu::raw::clocks(n[0], &n[1..], out)
        })
    }

    fn faults(&self) -> Vec<Fault> {
        let mut faults = bypass_faults();
        faults.extend([
            Fault("TwoTimesOneInEvaluation", |n| {
                let mut answer = Clocks.judged(n).0;
                if answer.refused == 0 {
                    answer.numbers[6] = 2 * answer.numbers[5];
                }
                answer
            }),
            Fault("TraceUncheckedUnderEmio", |n| {
                let mut asked = n.to_vec();
                let trace = asked.get_mut(1 + 25);
                if let Some(word) = trace.filter(|word| **word & 0x3F40 == 0x40) {
                    *word |= 0x100;
                }
                Clocks.judged(&asked).0
            }),
            Fault("DdrAndArmNumbersSwapped", |n| {
                let mut answer = Clocks.judged(n).0;
                if matches!(answer.carried, 1 | 2) {
                    answer.carried = 3 - answer.carried;
                }
                answer
            }),
        ]);
        faults
    }

    fn request(&self, n: &[u32]) -> String {
        self.with_words(n, 1)
    }

    fn given(&self, numbers: &[u32]) -> String {
        let mut words: Vec<String> = numbers.iter().map(u32::to_string).collect();
        if words.remove(EMIO) == "1" {
            words[EMIO - 1] = "emio".to_owned();
        }
        format!("ok {}", words.join(" "))
    }

    fn rust_timed(&self) -> Option<Timed> {
        Some(|inputs| {
            inputs.each(|n| {
                let clocks = original::evaluate(n[0], image::words(&n[1..]));
                clocks.map_or(0, |clocks| clocks.pl_clocks()[3].to_raw())
            })
        })
    }

    #[cfg(archive)]
    fn ours_timed(&self) -> Option<Timed> {
        use ogruspinu::{clocks::Clocks, time::Hertz};
        Some(|inputs| {
            inputs.each(|n| {
                let clocks = Clocks::new_from_regs(Hertz::from_raw(n[0]), &n[1..]);
                clocks.map_or(0, |clocks| clocks.pl_clocks()[3].to_raw())
            })
        })
    }
}

/// W-205's slips.
fn bypass_faults() -> Vec<Fault> {
    vec![
        Fault("QualifierBypasses", |n| {
            after(n, |control| {
                control & !0x18 | (control & 8) << 1 | (control & 16) >> 1
            })
        }),
        Fault("BypassExcusesFdivZero", |n| {
            after(n, |control| {
                match (bypassed(control), multiplier(control)) {
                    (true, 0) => control | 1 << 12,
                    _ => control,
                }
            })
        }),
        Fault("OverflowThoughBypassed", |n| {
            image::ruled(n).unwrap_or_else(|| Clocks.judged(n).0)
        }),
        Fault("EveryPllGivesTheCrystal", |n| {
            after(n, |control| control | FORCE)
        }),
        Fault("BypassOfNoAccount", |n| {
            after(n, |control| control & !FORCE)
        }),
    ]
}

/// The right answer to an image with its PLLs changed.
fn after(n: &[u32], change: fn(u32) -> u32) -> Answer {
    Clocks.judged(&bypass::with_controls(n, 0, change)).0
}
