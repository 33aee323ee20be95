//! The I2C search: reference, 0 for normal or 1 for fast. It gives both register values.
use crate::answer::Answer;
use crate::bench::Timed;
use crate::generate::{Numbers, around, grid};
use crate::rng::Rng;
use crate::subject::{About, Fault, Formula, Subject};

/// The frequencies that the search aims at.
const AIMS: [u32; 2] = [90_000, 384_600];

pub struct I2c;

impl Subject for I2c {
    fn about(&self) -> About {
        About {
            name: "i2c",
            stream: 2,
            list: Some([usize::MAX, 200, 300]),
        }
    }

    fn edges(&self) -> Vec<Numbers> {
        let named = [
            [111_111_111, 0],
            [111_111_111, 1],
            [u32::MAX, 0],
            [u32::MAX, 1],
        ];
        let mut all: Vec<Numbers> = named.map(Vec::from).into();
        // Where a pair hits its aim exactly; the last of these is the largest input of all.
        for (speed, aim) in AIMS.into_iter().enumerate() {
            for product in grid([1..=4, 1..=64]) {
                let exact = 22 * u64::from(product[0] * product[1]) * u64::from(aim);
                let inputs = around(exact).into_iter();
                all.extend(inputs.map(|input| vec![input, speed as u32]));
            }
        }
        all
    }

    fn small(&self) -> Vec<Numbers> {
        grid([0..=2_500, 0..=1])
    }

    fn random(&self, rng: &Rng) -> Numbers {
        let speed = rng.below(2);
        let attainable = 5632 * AIMS[speed as usize];
        let input = match rng.below(4) {
            0 => rng.magnitude(32),
            1 => rng.near(attainable),
            _ => rng.within(0, attainable),
        };
        vec![input, speed]
    }

    fn ruled(&self, _n: &[u32]) -> Option<Answer> {
        None
    }

    fn original(&self, n: &[u32]) -> Answer {
        match original::i2c(n[0], n[1] == 1) {
            Some((a, b)) => Answer::given([a.into(), b.into()]),
            None => Answer::refused(10),
        }
    }

    #[cfg(archive)]
    fn ours(&self, n: &[u32]) -> Answer {
        crate::lent::words::<2>(|out| ogruspinu::raw::i2c(n[0], n[1] == 1, out))
    }

    fn formula(&self) -> Option<Formula> {
        Some(|n| by_formula(n, false))
    }

    fn faults(&self) -> Vec<Fault> {
        vec![
            Fault("LaterOfI2cTie", |n| by_formula(n, true)),
            Fault("LimitOfI2cShort", |n| match n[0] {
                506_880_000 => Answer::refused(10),
                _ => by_formula(n, false),
            }),
        ]
    }

    fn request(&self, n: &[u32]) -> String {
        format!("i2c {} {}", n[0], ["normal", "fast"][n[1] as usize])
    }

    fn rust_timed(&self) -> Option<Timed> {
        Some(|inputs| {
            inputs.each(|n| original::i2c(n[0], n[1] == 1).map_or(0, |pair| pair.0.into()))
        })
    }

    #[cfg(archive)]
    fn ours_timed(&self) -> Option<Timed> {
        use ogruspinu::i2c::{Speed, calculate_divisors};
        use ogruspinu::time::Hertz;
        Some(|inputs| {
            inputs.each(|n| {
                let speed = [Speed::Normal100kHz, Speed::HighSpeed400KHz][usize::from(n[1] == 1)];
                let config = calculate_divisors(Hertz::from_raw(n[0]), speed);
                config.map_or(0, |config| config.div_a().into())
            })
        })
    }
}

fn by_formula(n: &[u32], later: bool) -> Answer {
    let right = I2c.judged(n).0;
    match right.refused {
        0 => Answer::given(searched(n[0], n[1] == 1, later)),
        _ => right,
    }
}

/// The register values for an attainable speed; optionally the later of a tie is kept.
fn searched(reference: u32, fast: bool, later: bool) -> [u32; 2] {
    let aim = AIMS[usize::from(fast)];
    let mut best = (u32::MAX, [0, 0]);
    for a in 1..=4 {
        for b in 1..=64 {
            let off = aim.abs_diff(reference / (22 * a * b));
            if off < best.0 || later && off == best.0 {
                best = (off, [a - 1, b - 1]);
            }
        }
    }
    best.1
}
