//! The exact ratio of any two of the four PL clocks, which whole Hertz hide: document 02, W-201.
use crate::raw;
use crate::refusal::{Refusal, words};
use crate::time::Hertz;
use std::cmp::Ordering;
use std::fmt::{self, Display, Formatter};

/// One clock to another, in lowest terms: no number but 1 divides both of its numbers, and neither is 0. So equal ratios
/// have equal numbers. They are ordered as the fractions are, by products of 128 bits.
///
/// ```
/// use ogruspinu::ratios::Ratio;
///
/// let ratio = |num, den| Ratio::new(num, den).expect("neither is 0");
/// assert_eq!((ratio(6, 4).num(), ratio(6, 4).den()), (3, 2));
/// assert!(ratio(u64::MAX, u64::MAX - 1) < ratio(u64::MAX - 1, u64::MAX - 2));
/// assert_eq!(ratio(3, 2).checked_mul(ratio(4, 9)), Some(ratio(2, 3)));
/// // The product is in lowest terms before it is asked whether it fits.
/// assert_eq!(ratio(u64::MAX, 2).checked_mul(ratio(2, u64::MAX)), Some(ratio(1, 1)));
/// assert_eq!(ratio(u64::MAX, 2).checked_mul(ratio(3, 1)), None);
/// assert_eq!(ratio(3, 2).inverse().to_string(), "2:3");
/// assert_eq!(Ratio::new(0, 1), None);
/// ```
#[derive(Clone, Copy, Debug, PartialEq, Eq, Hash)]
pub struct Ratio {
    num: u64,
    den: u64,
}

impl Ratio {
    /// Of any two numbers but 0.
    pub fn new(num: u64, den: u64) -> Option<Self> {
        Self::lowest(num.into(), den.into())
    }

    #[inline]
    pub const fn num(self) -> u64 {
        self.num
    }

    #[inline]
    pub const fn den(self) -> u64 {
        self.den
    }

    /// The second clock to the first.
    #[inline]
    #[must_use]
    pub const fn inverse(self) -> Self {
        Self {
            num: self.den,
            den: self.num,
        }
    }

    /// Clock i to j times clock j to k is clock i to k. None where a number of the product does not fit 64 bits.
    pub fn checked_mul(self, other: Self) -> Option<Self> {
        let product = |a: u64, b: u64| u128::from(a) * u128::from(b);
        Self::lowest(product(self.num, other.num), product(self.den, other.den))
    }

    /// None where a number is 0, or does not fit 64 bits in lowest terms.
    fn lowest(num: u128, den: u128) -> Option<Self> {
        if num == 0 || den == 0 {
            return None;
        }
        let (mut common, mut rest) = (num, den);
        while rest > 0 {
            (common, rest) = (rest, common % rest);
        }
        Some(Self {
            num: (num / common).try_into().ok()?,
            den: (den / common).try_into().ok()?,
        })
    }
}

impl Ord for Ratio {
    fn cmp(&self, other: &Self) -> Ordering {
        let product = |a: u64, b: u64| u128::from(a) * u128::from(b);
        product(self.num, other.den).cmp(&product(other.num, self.den))
    }
}

impl PartialOrd for Ratio {
    fn partial_cmp(&self, other: &Self) -> Option<Ordering> {
        Some(self.cmp(other))
    }
}

/// As the desk prints it.
impl Display for Ratio {
    fn fmt(&self, f: &mut Formatter<'_>) -> fmt::Result {
        write!(f, "{}:{}", self.num, self.den)
    }
}

/// Row i, column j is PL clock i to PL clock j: the undivided source of i over both its divisors, to that of j, never from
/// rounded Hertz. The diagonal is 1 to 1, entries across it are each other's inverse, and no number is over 504,063.
///
/// The crystal cancels: two crystals that are both accepted give the same table. Refusals: those of
/// [`Clocks::new_from_regs`](crate::clocks::Clocks::new_from_regs), in its order; then [`Refusal::ZeroClock`] for a crystal
/// of 0.
///
/// ```
#[doc = include_str!("clocks/plain_image.txt")]
/// use ogruspinu::ratios::ratios;
///
/// // Two channel pairs near 48 kHz: the IO PLL over 25 and 28, and over 12 and 59.
/// let crystal = Hertz::from_raw(33_333_333);
/// (image[28], image[32]) = (0x01C0_1900, 0x03B0_0C00);
/// let hertz = Clocks::new_from_regs(crystal, &image)?.pl_clocks().map(Hertz::to_raw);
/// // The second is 47,080.98 Hz: by whole Hertz the two are 0.71 seconds apart after ten hours.
/// assert_eq!(hertz[..2], [47_619, 47_080]);
/// let table = ratios(crystal, &image)?;
/// assert_eq!(table[0][1].to_string(), "177:175");
/// assert_eq!(table[1][0], table[0][1].inverse());
/// assert_eq!(table[0][1].checked_mul(table[1][2]), Some(table[0][2]));
/// assert_eq!(ratios(Hertz::from_raw(1), &image)?, table);
/// assert_eq!(ratios(Hertz::from_raw(0), &image), Err(Refusal::ZeroClock));
/// # Ok::<(), Refusal>(())
/// ```
#[inline]
pub fn ratios(crystal: Hertz, image: &[u32]) -> Result<[[Ratio; 4]; 4], Refusal> {
    let numbers: [u64; 32] = words(|out| raw::ratios(crystal.to_raw(), image, out))?;
    let ratio = |at: usize| Ratio {
        num: numbers[2 * at],
        den: numbers[2 * at + 1],
    };
    Ok([0, 1, 2, 3].map(|i| [0, 1, 2, 3].map(|j| ratio(4 * i + j))))
}
