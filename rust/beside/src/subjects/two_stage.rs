//! The two-stage search: reference, target, largest divisor.
use crate::answer::Answer;
use crate::bench::Timed;
use crate::generate::{Numbers, around, grid};
use crate::rng::Rng;
use crate::subject::{About, Fault, Formula, Subject};

const MAX: u32 = u32::MAX;
/// A first divisor up to this is tried in a moment.
const FEW_DIVISORS: u32 = 100_000;

pub struct TwoStage;

impl Subject for TwoStage {
    fn about(&self) -> About {
        About {
            name: "two-stage",
            stream: 0,
            list: Some([usize::MAX, 400, 600]),
        }
    }

    fn edges(&self) -> Vec<Numbers> {
        let mut all: Vec<Numbers> = [
            [1_000_000_000, 12_288_000, 63],
            [8, 3, 4],
            [5, 1, 63],
            [10, 100, 63],
            [1_000_000, 1, 10],
            [0, 7, 9],
            [MAX, 1, MAX],
            [MAX - 1, 1, MAX],
            [MAX, 1, MAX - 1],
            [MAX, 2, MAX],
            [MAX, MAX, MAX],
            [MAX, MAX, 1],
            [MAX, 1, 1],
            [MAX, 1, 63],
            [0, MAX, 63],
            [0, 0, 0],
            [7, 0, 63],
            [7, 7, 0],
        ]
        .map(Vec::from)
        .into();
        // Around what each pair of an audio board's divisors gives.
        for reference in [1_000_000_000, 1_600_000_000, 33_333_333 * 30] {
            for first in [1, 2, 3, 7, 31, 62, 63] {
                for second in [1, 2, 27, 62, 63, 64] {
                    let targets = around(u64::from(reference / first / second)).into_iter();
                    all.extend(targets.map(|target| vec![reference, target, 63]));
                }
            }
        }
        all
    }

    fn small(&self) -> Vec<Numbers> {
        grid([0..=30, 0..=12, 0..=6])
    }

    fn random(&self, rng: &Rng) -> Numbers {
        let reference = rng.magnitude(32);
        if reference > 0 && rng.one_in(8) {
            // The first divisor 1 hits the target exactly, so that a huge largest divisor is no burden.
            let target = reference / rng.within(1, reference);
            return vec![reference, target, rng.within(reference / target, MAX)];
        }
        let bits = rng.pick(&[6, 6, 6, 6, 6, 6, 10, 12]);
        let largest = match rng.below(3) {
            0 => rng.magnitude(bits),
            _ => 63,
        };
        let first = rng.within(1, largest.max(1));
        let second = rng.within(1, largest.max(1));
        let target = match rng.below(30) {
            0..10 => rng.magnitude(32),
            10 => 0,
            _ => rng.near(reference / first / second).max(1),
        };
        vec![reference, target, largest]
    }

    /// The original tries every first divisor unless the very first one hits the target.
    fn affordable(&self, n: &[u32]) -> bool {
        let (reference, target, largest) = (n[0], n[1], n[2]);
        let hits_at_once = || {
            let second = (reference / target).clamp(1, largest);
            reference / second == target
        };
        largest <= FEW_DIVISORS || target == 0 || hits_at_once()
    }

    fn ruled(&self, n: &[u32]) -> Option<Answer> {
        match *n {
            [_, 0, _] => Some(Answer::refused(6)),
            [_, _, 0] => Some(Answer::refused(7)),
            [u32::MAX, 1, u32::MAX] => Some(Answer::given([1, u32::MAX])),
            _ => None,
        }
    }

    fn original(&self, n: &[u32]) -> Answer {
        let found = original::two_stage(n[0], n[1], n[2]);
        let (first, second) = found.expect("the one overflow is ruled");
        Answer::given([first, second])
    }

    #[cfg(archive)]
    fn ours(&self, n: &[u32]) -> Answer {
        crate::lent::words::<2>(|out| ogruspinu::raw::two_stage(n[0], n[1], n[2], out))
    }

    fn formula(&self) -> Option<Formula> {
        Some(|n| by_formula(n, false, false))
    }

    fn faults(&self) -> Vec<Fault> {
        vec![
            Fault("OnlyAtOrBelowIdeal", |n| by_formula(n, true, false)),
            Fault("LaterOfTwoStageTie", |n| by_formula(n, false, true)),
        ]
    }

    fn rust_timed(&self) -> Option<Timed> {
        Some(|inputs| {
            inputs.each(|n| original::two_stage(n[0], n[1], n[2]).map_or(0, |pair| pair.0))
        })
    }

    #[cfg(archive)]
    fn ours_timed(&self) -> Option<Timed> {
        use ogruspinu::{time::Hertz, two_stage::find_two_stage_divisors};
        Some(|inputs| {
            inputs.each(|n| {
                let (reference, target) = (Hertz::from_raw(n[0]), Hertz::from_raw(n[1]));
                let pair = find_two_stage_divisors(reference, target, n[2]);
                pair.map_or(0, |pair| pair.div0)
            })
        })
    }
}

fn by_formula(n: &[u32], only_below: bool, later: bool) -> Answer {
    if n[1] == 0 || !(1..=FEW_DIVISORS).contains(&n[2]) {
        return TwoStage.judged(n).0;
    }
    Answer::given(searched(n[0], n[1], n[2], only_below, later))
}

/// Both divisors; optionally only the divisor at or below the ideal one is tried, or the later of a tie is kept.
fn searched(reference: u32, target: u32, largest: u32, only_below: bool, later: bool) -> [u32; 2] {
    let (reference, target) = (u64::from(reference), u64::from(target));
    let mut best = (u64::MAX, [1, 1]);
    for first in 1..=u64::from(largest) {
        let ideal = (reference / (target * first)).clamp(1, largest.into());
        let above = (ideal + 1).min(largest.into());
        for second in [ideal, if only_below { ideal } else { above }] {
            let off = (reference / (first * second)).abs_diff(target);
            if off < best.0 || later && off == best.0 {
                best = (off, [first as u32, second as u32]);
            }
        }
        // Nothing is nearer than this, and a later tie could only be kept by that slip.
        if best.0 == 0 && !later {
            break;
        }
    }
    best.1
}
