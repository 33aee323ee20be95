//! Document 02's words on ratios, by brute force: each of the sixteen entries by itself, in numbers of 128 bits, and reduced by
//! halving and subtracting, where ours mirrors six that it reduces by remainders. And the images that are worth asking about.
use super::bypass::{bypassed, every_way, multiplier};
use super::image::{FDIV, changed, typical};
use crate::answer::Answer;
use crate::generate::{Numbers, grid};
use crate::rng::Rng;

/// Where a request has the words of the four PL clocks.
const PL: [usize; 4] = [1 + 28, 1 + 32, 1 + 36, 1 + 40];

/// A clock before any division.
#[derive(Clone, Copy)]
pub struct Clock {
    pub source: u128,
    pub product: u128,
    first: u128,
}

impl Clock {
    /// By its word: source 0 and 1 IO PLL, 2 ARM, 3 DDR.
    fn of(n: &[u32], word: u32) -> Self {
        let control = match word >> 4 & 3 {
            2 => n[1],
            3 => n[2],
            _ => n[3],
        };
        let by = if bypassed(control) {
            1
        } else {
            multiplier(control)
        };
        let first = u128::from(word >> 8 & 63);
        Self {
            source: u128::from(n[0]) * u128::from(by),
            product: first * u128::from(word >> 20 & 63),
            first,
        }
    }

    /// This clock to another, in lowest terms.
    pub fn to(self, other: Self) -> (u128, u128) {
        lowest(self.source * other.product, other.source * self.product)
    }

    pub fn hertz(self) -> u128 {
        self.source / self.product
    }

    pub fn with_one_divisor(self) -> Self {
        Self {
            product: self.first,
            ..self
        }
    }
}

pub fn lowest(num: u128, den: u128) -> (u128, u128) {
    let common = common(num, den);
    (num / common, den / common)
}

/// The greatest common divisor: two odd numbers have that of the smaller and half their distance. With 0 it is the other, and
/// of 0 and 0, which nothing right asks for, 1.
fn common(mut a: u128, mut b: u128) -> u128 {
    if a == 0 || b == 0 {
        return (a + b).max(1);
    }
    let twos = (a | b).trailing_zeros();
    a >>= a.trailing_zeros();
    while b > 0 {
        b >>= b.trailing_zeros();
        (a, b) = (a.min(b), a.max(b) - a.min(b));
    }
    a << twos
}

/// Every entry by itself, as halves of 64-bit numbers.
pub fn table(n: &[u32], entry: impl Fn(Clock, Clock) -> (u128, u128)) -> Answer {
    let clocks = PL.map(|word| Clock::of(n, n[word]));
    let mut numbers = Vec::with_capacity(64);
    for row in clocks {
        for column in clocks {
            let (num, den) = entry(row, column);
            numbers.extend([num, den].into_iter().flat_map(halves));
        }
    }
    Answer::given(numbers)
}

fn halves(number: u128) -> [u32; 2] {
    let wide = u64::try_from(number).expect("document 02 has 64 bits");
    [wide as u32, (wide >> 32) as u32]
}

/// The 64-bit numbers of such halves.
pub fn wide(halves: &[u32]) -> impl Iterator<Item = u64> {
    let wide = |half: &[u32]| u64::from(half[0]) | u64::from(half[1]) << 32;
    halves.chunks(2).map(wide)
}

/// A clock word of a source and two divisors.
pub fn word(source: u32, first: u32, second: u32) -> u32 {
    source << 4 | first << 8 | second << 20
}

/// The typical image with three PLLs that differ.
pub fn base() -> Numbers {
    let by = [2, 3, 5];
    (0..3).fold(typical(), |n, pll| changed(&n, FDIV[pll], by[pll]))
}

/// The first PL clocks' words set.
pub fn with_words(n: &[u32], words: &[u32]) -> Numbers {
    let mut n = n.to_vec();
    for (&at, &word) in PL.iter().zip(words) {
        n[at] = word;
    }
    n
}

/// Two channel pairs near 48 kHz, whose whole Hertz are 0.71 seconds apart from the truth after ten hours.
pub fn near_48_khz() -> Numbers {
    let ones = FDIV.iter().fold(typical(), |n, &at| changed(&n, at, 1));
    with_words(&ones, &[word(0, 25, 28), word(0, 12, 59)])
}

/// Every two sources under every set of bypassed PLLs, with the largest products, the smallest and some between, at crystals
/// 0, 1 and the largest.
pub fn sources_and_products() -> Vec<Numbers> {
    let mut all = Vec::new();
    let divisors = [(1, 1), (63, 63), (2, 35), (62, 63)];
    for n in grid([0..=3, 0..=3, 0..=2, 0..=3, 0..=3]) {
        let [left, right] = [n[3], n[4]].map(|at| divisors[at as usize]);
        let words = [word(n[0], left.0, left.1), word(n[1], right.0, right.1)];
        let n = match n[2] {
            0 => with_words(&base(), &words),
            1 => with_words(&typical(), &words),
            _ => changed(&with_words(&base(), &words), FDIV[2], 127),
        };
        for mut n in every_way(&n) {
            for crystal in [0, 1, largest(&n)] {
                n[0] = crystal;
                all.push(n.clone());
            }
        }
    }
    all
}

/// The largest crystal of which no PLL makes more than 32 bits.
fn largest(n: &[u32]) -> u32 {
    let by = |&control: &u32| match bypassed(control) {
        true => 1,
        false => multiplier(control),
    };
    let most = n[1..4].iter().map(by).max();
    u32::MAX / most.unwrap_or(1).max(1)
}

/// An image that is not refused but for its crystal: any multipliers, sources and divisors, and some clocks that are the same.
pub fn random(rng: &Rng) -> Numbers {
    let mut n = typical();
    for control in &mut n[1..4] {
        *control = rng.word() & !(127 << 12) | rng.within(1, 127) << 12;
    }
    for at in PL {
        let (first, second) = match rng.below(4) {
            0 => (63, 63),
            1 => (rng.within(1, 4), rng.within(1, 4)),
            _ => (rng.within(1, 63), rng.within(1, 63)),
        };
        n[at] = rng.word() & !word(0, 63, 63) | word(0, first, second);
    }
    if rng.one_in(3) {
        n[rng.pick(&PL)] = n[rng.pick(&PL)];
    }
    n[0] = match rng.below(16) {
        0 => 0,
        1 => 1,
        2 => largest(&n),
        3 => largest(&n).saturating_add(1),
        _ => rng.within(1, largest(&n)),
    };
    n
}

#[cfg(test)]
mod tests {
    use super::*;
    use crate::subject::Subject;
    use crate::subjects::ratios::Ratios;

    /// How often each kind that the request names is among random images, and how often there is a table.
    #[test]
    fn random_images_are_of_every_kind() {
        let rng = Rng::new(1, 17);
        let mut met = [0; 8];
        for _ in 0..50_000 {
            let n = Ratios.random(&rng);
            let answer = Ratios.judged(&n).0;
            let clocks = PL.map(|word| Clock::of(&n, *n.get(word).unwrap_or(&0)));
            let others = clocks[1..].iter();
            let kinds = [
                answer.refused == 0,
                answer.refused == 14,
                ![0, 14].contains(&answer.refused),
                n[0] == 1,
                n[0] == largest(&n),
                clocks.iter().any(|clock| clock.product == 63 * 63),
                others.clone().any(|clock| clock.to(clocks[0]) == (1, 1)),
                others.clone().any(|clock| clock.source != clocks[0].source),
            ];
            for (count, kind) in met.iter_mut().zip(kinds) {
                *count += usize::from(kind);
            }
        }
        assert!(met[0] > 20_000, "tables: {met:?}");
        assert!(met.iter().all(|&often| often > 1_000), "{met:?}");
    }

    #[test]
    fn the_other_greatest_common_divisor() {
        for a in 1..200u128 {
            for b in 1..200u128 {
                let divides = |d: &u128| a.is_multiple_of(*d) && b.is_multiple_of(*d);
                assert_eq!(Some(common(a, b)), (1..=a).rev().find(divides));
            }
        }
    }
}
