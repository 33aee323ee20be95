//! Two counters of 16 bits over hours: the ticks of each, and how far either was ahead. Document 02, W-211.
use crate::raw;
pub use crate::raw::TraceLead as Lead;
use crate::refusal::{Refusal, refused};

/// The most samples of a trace.
pub const MOST_SAMPLES: u32 = 16_777_216;

/// A trace of two channels, fed in parts of any length: nothing depends on how it was cut.
///
/// The totals are the ticks that really passed wherever fewer than 65,536 pass between neighbouring samples. So
/// [`MOST_SAMPLES`] hold ten hours of clocks below 30.5 MHz, and a prescaler ([`ttc`](crate::ttc)) brings a faster one there.
///
/// ```
/// use ogruspinu::{Refusal, trace::{Lead, Trace}};
///
/// // The first counter goes 500 ticks a sample and passes zero between the two parts; the second goes 390.
/// let mut trace = Trace::new();
/// trace.feed(&[65_000, 65_500], &[10, 400])?;
/// trace.feed(&[464], &[790])?;
/// assert_eq!((trace.samples(), trace.first(), trace.second()), (3, 1_000, 780));
/// assert_eq!(trace.difference(), 220);
/// assert_eq!(trace.first_leads(), Lead { ticks: 220, at: 2 });
/// assert_eq!(trace.second_leads(), Lead::default());
/// # Ok::<(), Refusal>(())
/// ```
///
/// [`raw::trace_feed`] has the state as plain numbers, for a program that stores it between two parts.
#[derive(Clone, Debug, Default, PartialEq, Eq)]
pub struct Trace {
    state: raw::Trace,
}

impl Trace {
    /// Of no samples: every number is 0.
    pub fn new() -> Self {
        Self::default()
    }

    /// A part more: the counts of both channels, read at the same moments. Refusals: [`Refusal::BadRows`] where there are not
    /// as many of the one as of the other; then [`Refusal::TraceLong`] where there would be more than [`MOST_SAMPLES`]. Neither
    /// changes the trace.
    ///
    /// ```
    /// use ogruspinu::{Refusal, trace::Trace};
    ///
    /// let mut trace = Trace::new();
    /// trace.feed(&[7, 8], &[9, 9])?;
    /// assert_eq!(trace.feed(&[10], &[]), Err(Refusal::BadRows));
    /// assert_eq!((trace.samples(), trace.first(), trace.second()), (2, 1, 0));
    /// # Ok::<(), Refusal>(())
    /// ```
    #[inline]
    pub fn feed(&mut self, first: &[u16], second: &[u16]) -> Result<(), Refusal> {
        let fed = raw::trace_feed(self.state, first, second);
        self.state = fed.trace;
        match fed.refusal {
            0 => Ok(()),
            number => Err(refused(number, 0)),
        }
    }

    #[inline]
    pub const fn samples(&self) -> u32 {
        self.state.samples
    }

    /// The first channel's ticks since the first sample.
    #[inline]
    pub const fn first(&self) -> u64 {
        self.state.first.total
    }

    /// The second channel's.
    #[inline]
    pub const fn second(&self) -> u64 {
        self.state.second.total
    }

    /// The first total less the second.
    #[inline]
    pub fn difference(&self) -> i64 {
        raw::trace_difference(self.state)
    }

    /// The most that the first channel was ahead of the second.
    #[inline]
    pub const fn first_leads(&self) -> Lead {
        self.state.first_leads
    }

    /// The most that the second channel was ahead of the first.
    #[inline]
    pub const fn second_leads(&self) -> Lead {
        self.state.second_leads
    }
}
