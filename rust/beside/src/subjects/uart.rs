//! The UART's best pair: reference, baud. It gives the clock divisor, the baud divider and the error's bits.
use super::uart_formula::{RIGHT, slips};
use crate::answer::Answer;
use crate::bench::Timed;
use crate::generate::{Numbers, around, grid};
use crate::rng::Rng;
use crate::subject::{About, Fault, Formula, Subject};

/// Baud rates of everyday use.
const BAUDS: [u32; 12] = [
    300, 1_200, 9_600, 19_200, 31_250, 38_400, 57_600, 115_200, 230_400, 460_800, 921_600,
    3_000_000,
];

pub struct Uart;

impl Subject for Uart {
    fn about(&self) -> About {
        About {
            name: "uart",
            stream: 7,
            list: Some([usize::MAX, 600, 1_300]),
        }
    }

    fn edges(&self) -> Vec<Numbers> {
        let mut all: Vec<Numbers> = [
            [48_000, 9_600],
            [24_000, 9_600],
            [23_999, 9_600],
            // Products that must be rounded, for the best pair and for the list; a best error one step above 0.5.
            [188_888_518, 75_555_408],
            [1_919_168_192, 2_040_583],
            [36_578_418, 14_631_367],
            [0, 0],
            [0, 1],
            [1, 0],
            [u32::MAX, 0],
            [u32::MAX, 1],
            [1, u32::MAX],
            [u32::MAX, u32::MAX],
        ]
        .map(Vec::from)
        .into();
        for baud in BAUDS {
            all.extend(
                [33_333_333, 50_000_000, 100_000_000].map(|reference| vec![reference, baud]),
            );
        }
        for bdiv in [4, 5, 7, 127, 253, 254] {
            for baud in [1u64, 2, 9_600, 65_536] {
                // Halves at the lower end, at the upper end and in between, in halves of the product.
                let product = (bdiv + 1) * baud;
                for halves in [1, 3, 5, 201, 2 * 65_535 - 1, 2 * 65_535 + 1] {
                    let references = around(halves * product / 2).into_iter();
                    all.extend(references.map(|reference| vec![reference, baud as u32]));
                }
            }
            // A product next to the end of the exact whole numbers.
            for baud in around((1 << 24) / (bdiv + 1)) {
                all.extend([1 << 23, 1 << 25, 1 << 31].map(|reference| vec![reference, baud]));
            }
        }
        all
    }

    fn small(&self) -> Vec<Numbers> {
        grid([0..=220, 0..=14])
    }

    /// Where each rounding can go wrong.
    fn random(&self, rng: &Rng) -> Numbers {
        match rng.below(6) {
            0 => vec![rng.magnitude(32), rng.magnitude(32)],
            1 => vec![rng.within(1_000_000, 250_000_000), rng.pick(&BAUDS)],
            2 => half_way(rng),
            3 => vec![rng.magnitude(32), rng.near((1 << 24) / rng.within(5, 255))],
            4 => barely_viable(rng),
            _ => {
                let baud = rng.magnitude(28).max(1);
                let times = u64::from(rng.magnitude(24)) * u64::from(baud);
                vec![rng.near(times.min(u32::MAX.into()) as u32), baud]
            }
        }
    }

    fn ruled(&self, _n: &[u32]) -> Option<Answer> {
        None
    }

    fn original(&self, n: &[u32]) -> Answer {
        match original::uart(n[0], n[1]) {
            Some(best) => Answer::given(record(&best)),
            None => Answer::refused(8),
        }
    }

    #[cfg(archive)]
    fn ours(&self, n: &[u32]) -> Answer {
        crate::lent::words::<3>(|out| ogruspinu::raw::uart(n[0], n[1], out))
    }

    fn formula(&self) -> Option<Formula> {
        Some(|n| RIGHT.best(n))
    }

    fn faults(&self) -> Vec<Fault> {
        slips! { best:
            "LaterOfUartTie": later_on_a_tie = true;
        }
    }

    fn given(&self, numbers: &[u32]) -> String {
        format!("{} {} {:08x}", numbers[0], numbers[1], numbers[2])
    }

    fn rust_timed(&self) -> Option<Timed> {
        Some(|inputs| inputs.each(|n| original::uart(n[0], n[1]).map_or(0, |best| best.2)))
    }

    #[cfg(archive)]
    fn ours_timed(&self) -> Option<Timed> {
        use ogruspinu::{time::Hertz, uart::best_baud_divisors};
        Some(|inputs| {
            inputs.each(|n| {
                let best = best_baud_divisors(Hertz::from_raw(n[0]), n[1]);
                best.map_or(0, |best| best.error.to_bits())
            })
        })
    }
}

pub fn record(&(cd, bdiv, error): &original::Baud) -> [u32; 3] {
    [cd.into(), bdiv.into(), error]
}

/// A reference that is an odd number of halves of some divider's product, whether that is exact as a float or
/// has to be rounded first.
fn half_way(rng: &Rng) -> Numbers {
    let (factor, half_baud) = (rng.within(5, 255), rng.magnitude(24).max(1));
    let half = factor * half_baud;
    let most = (u32::MAX / half - 1) / 2;
    let halves = 2 * rng.pick(&[rng.magnitude(16).min(most), rng.within(0, most)]) + 1;
    vec![half * halves, 2 * half_baud]
}

/// A reference for which some pair is off by half a percent or just about; a baud rate that is a multiple of
/// 200 can be off by it exactly.
fn barely_viable(rng: &Rng) -> Numbers {
    let any = rng.magnitude(20).max(1);
    let baud = rng.pick(&[any, 200 * any.div_ceil(200)]);
    let cd = rng.pick(&[rng.magnitude(7), rng.magnitude(16)]).max(1);
    let exact = u64::from(baud) * u64::from(cd) * u64::from(rng.within(5, 255));
    let off = exact / 200;
    let reference = rng.pick(&[exact + off, exact - off]).min(u32::MAX.into()) as u32;
    vec![rng.pick(&[reference, rng.near(reference)]), baud]
}
