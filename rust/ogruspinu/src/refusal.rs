//! Why there is no answer, by the numbers of documents 01 and 02.
use crate::clocks::ClockModuleId;
use crate::raw;
use std::error::Error;
use std::fmt::{self, Display, Formatter};

/// A refusal. Nothing that was lent has changed. 15 to 17 are document 02's, and no call of the library gives them yet.
///
/// ```
/// use ogruspinu::{Refusal, pll_settings::PllConfig};
///
/// let refusal = PllConfig::new(67).unwrap_err();
/// assert_eq!(refusal, Refusal::MulRange(67));
/// assert_eq!((refusal.number(), refusal.carried()), (5, Some(67)));
/// assert_eq!(refusal.to_string(), "the multiplier 67 is not one of 13 to 66 (refusal 5)");
/// ```
#[derive(Clone, Copy, Debug, PartialEq, Eq, Hash)]
#[non_exhaustive]
pub enum Refusal {
    /// 1: the image is not 50 words.
    BadImage,
    /// 2: a checked divisor field of this module is 0.
    DivisorZero(ClockModuleId),
    /// 3: crystal times FDIV of a PLL that is not bypassed does not fit into 32 bits; the module is always the PLLs'.
    Overflow(ClockModuleId),
    /// 4: crystal 0 in a PLL setting by target.
    ZeroInput,
    /// 5: this multiplier is not one of 13 to 66.
    MulRange(u32),
    /// 6: the target is 0.
    ZeroTarget,
    /// 7: the largest divisor is 0.
    BadMax,
    /// 8: no UART candidate exists.
    NoPair,
    /// 9: the lent row is too short; so many are needed.
    NoRoom(u32),
    /// 10: the I2C input is above 5632 times the calculation frequency.
    Speed,
    /// 11: the PLL is unlocked at the last allowed poll.
    LockTimeout,
    /// 12: the poll limit is 0.
    BadLimit,
    /// 13: a once-only PLL start is repeated.
    Already,
    /// 14: the crystal is 0 where ratios are asked for.
    ZeroClock,
    /// 15: a settings record breaks a rule at this offset.
    BadSettings(u32),
    /// 16: a settings record of a later version.
    Newer,
    /// 17: a word that the party does not hold, or cannot claim.
    NotYours,
    /// 18: rows of lengths that do not belong together.
    BadRows,
    /// 19: a part would make its trace longer than 16,777,216 samples.
    TraceLong,
    /// 20: a number is too wide for its field.
    BadField,
}

impl Refusal {
    /// The refusal of a number and of what it carries, if the documents have it.
    ///
    /// ```
    /// use ogruspinu::{Refusal, clocks::ClockModuleId};
    ///
    /// assert_eq!(Refusal::of(2, 11), Some(Refusal::DivisorZero(ClockModuleId::Trace)));
    /// assert_eq!(Refusal::of(21, 0), None);
    /// ```
    pub fn of(number: u32, carried: u32) -> Option<Self> {
        Some(match number {
            1 => Self::BadImage,
            2 => Self::DivisorZero(ClockModuleId::of(carried)?),
            3 => Self::Overflow(ClockModuleId::of(carried)?),
            4 => Self::ZeroInput,
            5 => Self::MulRange(carried),
            6 => Self::ZeroTarget,
            7 => Self::BadMax,
            8 => Self::NoPair,
            9 => Self::NoRoom(carried),
            10 => Self::Speed,
            11 => Self::LockTimeout,
            12 => Self::BadLimit,
            13 => Self::Already,
            14 => Self::ZeroClock,
            15 => Self::BadSettings(carried),
            16 => Self::Newer,
            17 => Self::NotYours,
            18 => Self::BadRows,
            19 => Self::TraceLong,
            20 => Self::BadField,
            _ => return None,
        })
    }

    /// The documents' number.
    pub const fn number(self) -> u32 {
        match self {
            Self::BadImage => 1,
            Self::DivisorZero(_) => 2,
            Self::Overflow(_) => 3,
            Self::ZeroInput => 4,
            Self::MulRange(_) => 5,
            Self::ZeroTarget => 6,
            Self::BadMax => 7,
            Self::NoPair => 8,
            Self::NoRoom(_) => 9,
            Self::Speed => 10,
            Self::LockTimeout => 11,
            Self::BadLimit => 12,
            Self::Already => 13,
            Self::ZeroClock => 14,
            Self::BadSettings(_) => 15,
            Self::Newer => 16,
            Self::NotYours => 17,
            Self::BadRows => 18,
            Self::TraceLong => 19,
            Self::BadField => 20,
        }
    }

    /// The number that the refusal carries, if it carries one.
    pub const fn carried(self) -> Option<u32> {
        match self {
            Self::DivisorZero(module) | Self::Overflow(module) => Some(module as u32),
            Self::MulRange(number) | Self::NoRoom(number) | Self::BadSettings(number) => {
                Some(number)
            }
            _ => None,
        }
    }
}

impl Display for Refusal {
    fn fmt(&self, f: &mut Formatter<'_>) -> fmt::Result {
        match self {
            Self::BadImage => write!(f, "the image is not 50 words"),
            Self::DivisorZero(module) => write!(f, "a divisor of {module:?} is 0"),
            Self::Overflow(_) => write!(
                f,
                "crystal times FDIV of a PLL that is not bypassed does not fit into 32 bits"
            ),
            Self::ZeroInput => write!(f, "the crystal is 0"),
            Self::MulRange(by) => write!(f, "the multiplier {by} is not one of 13 to 66"),
            Self::ZeroTarget => write!(f, "the target is 0"),
            Self::BadMax => write!(f, "the largest divisor is 0"),
            Self::NoPair => write!(f, "there is no UART candidate"),
            Self::NoRoom(needed) => write!(f, "room for {needed} is needed"),
            Self::Speed => write!(f, "the I2C speed is not attainable"),
            Self::LockTimeout => write!(f, "the PLL is unlocked at the last allowed poll"),
            Self::BadLimit => write!(f, "the poll limit is 0"),
            Self::Already => write!(f, "the PLL was started before"),
            Self::ZeroClock => write!(f, "the crystal is 0"),
            Self::BadSettings(at) => write!(f, "the settings break a rule at offset {at}"),
            Self::Newer => write!(f, "the settings are of a later version"),
            Self::NotYours => write!(f, "the party does not hold the word, or cannot claim it"),
            Self::BadRows => write!(f, "the rows' lengths do not belong together"),
            Self::TraceLong => write!(f, "the trace would be longer than 16777216 samples"),
            Self::BadField => write!(f, "a number is too wide for its field"),
        }?;
        write!(f, " (refusal {})", self.number())
    }
}

impl Error for Refusal {}

/// What an exported function tells: the upper half of an answer, or its refusal.
#[inline]
pub(crate) fn told(told: u64) -> Result<u32, Refusal> {
    match raw::halves(told) {
        (0, answer) => Ok(answer),
        (number, carried) => Err(refused(number, carried)),
    }
}

/// The refusal of a number that the library gave and of what it carries.
#[cold]
pub(crate) fn refused(number: u32, carried: u32) -> Refusal {
    let refusal = Refusal::of(number, carried);
    refusal.expect("the library's contracts have no other refusal")
}

/// Lends N words and gives them back filled.
#[inline]
pub(crate) fn words<T: Copy + Default, const N: usize>(
    call: impl FnOnce(&mut [T]) -> u64,
) -> Result<[T; N], Refusal> {
    words_or(refused, call)
}

/// The same where the call has but one or two refusals, which the caller names itself: that is quicker than to look
/// the refusal up among all.
#[inline]
pub(crate) fn words_or<T: Copy + Default, const N: usize>(
    refused: impl FnOnce(u32, u32) -> Refusal,
    call: impl FnOnce(&mut [T]) -> u64,
) -> Result<[T; N], Refusal> {
    let mut words = [T::default(); N];
    match raw::halves(call(&mut words)) {
        (0, _) => Ok(words),
        (number, carried) => {
            let refusal = refused(number, carried);
            debug_assert_eq!(Refusal::of(number, carried), Some(refusal));
            Err(refusal)
        }
    }
}
