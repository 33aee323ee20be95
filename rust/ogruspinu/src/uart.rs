//! UART divisors: the baud rate is the reference clock over cd (bdiv + 1).
use crate::raw;
use crate::refusal::{Refusal, told, words};
use crate::time::Hertz;

/// A pair is viable where its error is below half a percent.
pub const MAX_BAUDERROR_RATE: f32 = 0.005;

/// The most viable pairs that there can be.
pub const MOST_PAIRS: usize = 251;

/// A pair with its error.
#[repr(C)]
#[derive(Clone, Copy, Debug, Default, PartialEq)]
pub struct BaudDivisors {
    /// What the reference clock is divided by first.
    pub cd: u16,
    /// The second divisor less one.
    pub bdiv: u8,
    /// How far the baud rate is off, as a fraction of the one asked for.
    pub error: f32,
}

/// The pair with the least error, the first divider on a tie. Refusal: [`Refusal::NoPair`], where the original gives a
/// stand-in pair.
///
/// ```
/// use ogruspinu::{Refusal, time::Hertz, uart};
///
/// let best = uart::best_baud_divisors(Hertz::from_raw(24_000), 9_600)?;
/// assert_eq!((best.cd, best.bdiv, best.error), (1, 4, 0.5));
/// let none = uart::best_baud_divisors(Hertz::from_raw(23_999), 9_600);
/// assert_eq!(none, Err(Refusal::NoPair));
/// # Ok::<(), Refusal>(())
/// ```
#[inline]
pub fn best_baud_divisors(ref_clk: Hertz, target_baud: u32) -> Result<BaudDivisors, Refusal> {
    let [cd, bdiv, error] = words(|out| raw::uart(ref_clk.to_raw(), target_baud, out))?;
    Ok(BaudDivisors {
        cd: cd as u16,
        bdiv: bdiv as u8,
        error: f32::from_bits(error),
    })
}

/// Every viable pair, in rising order of the divider.
///
/// ```
/// use ogruspinu::{time::Hertz, uart};
///
/// let viable = uart::viable_baud_divisors(Hertz::from_raw(96_000), 9_600);
/// let pairs: Vec<(u16, u8)> = viable.iter().map(|pair| (pair.cd, pair.bdiv)).collect();
/// assert_eq!(pairs, [(2, 4), (1, 9)]);
/// ```
pub fn viable_baud_divisors(ref_clk: Hertz, target_baud: u32) -> Vec<BaudDivisors> {
    let mut records = [BaudDivisors::default(); MOST_PAIRS];
    let count = viable_baud_divisors_into(ref_clk, target_baud, &mut records);
    let count = count.expect("there are never more pairs");
    records[..count].to_vec()
}

/// The same into lent records, with how many there are; records behind them stay. Refusal: [`Refusal::NoRoom`], which
/// carries how many pairs there are.
///
/// ```
/// use ogruspinu::{Refusal, time::Hertz, uart};
///
/// let mut records = [uart::BaudDivisors::default(); 2];
/// let written = uart::viable_baud_divisors_into(Hertz::from_raw(96_000), 9_600, &mut records)?;
/// assert_eq!((written, records[1].bdiv), (2, 9));
/// let short = uart::viable_baud_divisors_into(Hertz::from_raw(96_000), 9_600, &mut records[..1]);
/// assert_eq!(short, Err(Refusal::NoRoom(2)));
/// # Ok::<(), Refusal>(())
/// ```
#[inline]
pub fn viable_baud_divisors_into(
    ref_clk: Hertz,
    target_baud: u32,
    records: &mut [BaudDivisors],
) -> Result<usize, Refusal> {
    let count = told(raw::uart_list(ref_clk.to_raw(), target_baud, records))?;
    Ok(count as usize)
}
