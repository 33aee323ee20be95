//! Frequencies.
use std::fmt::{self, Display, Formatter};

/// A frequency in whole Hertz.
///
/// ```
/// use ogruspinu::time::Hertz;
///
/// let crystal = Hertz::from_raw(33_333_333);
/// assert_eq!(crystal.to_raw(), 33_333_333);
/// assert_eq!(crystal.to_string(), "33333333 Hz");
/// ```
#[derive(Clone, Copy, Debug, Default, PartialEq, Eq, PartialOrd, Ord, Hash)]
pub struct Hertz(u32);

impl Hertz {
    #[inline]
    pub const fn from_raw(raw: u32) -> Self {
        Self(raw)
    }

    #[inline]
    pub const fn to_raw(self) -> u32 {
        self.0
    }
}

impl Display for Hertz {
    fn fmt(&self, f: &mut Formatter<'_>) -> fmt::Result {
        write!(f, "{} Hz", self.0)
    }
}
