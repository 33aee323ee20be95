//! The sequence that sets a PLL up and waits for its lock, one register access a step: its starts and its steps.
use crate::pll_settings::PllConfig;
use crate::raw::{self, PllPlan, PllStep};
use crate::refusal::{Refusal, refused};

/// Which PLL; the number is also that of its control word and of its lock bit.
#[derive(Clone, Copy, Debug, PartialEq, Eq)]
pub enum PllType {
    Arm,
    Ddr,
    Io,
}

/// How the chip was booted.
#[derive(Clone, Copy, Debug, PartialEq, Eq)]
pub enum BootPllConfig {
    Enabled,
    Bypassed,
}

/// What the host is to do for a run.
#[derive(Clone, Copy, Debug, PartialEq, Eq)]
pub enum Request {
    /// To read a word of the image, and hand it to the next step.
    Read { word: u32 },
    /// To write a word of the image; what the next step is handed does not matter.
    Write { word: u32, value: u32 },
    /// Nothing more: the lock was seen, and the PLL is in use.
    Locked,
}

/// A run of the sequence: the host has the registers, and the run their order and what is written to them. It begins with
/// [`configure_pll`] and its sisters, and goes by value.
///
/// ```
/// use ogruspinu::{Refusal, pll_settings::PllConfig, pll_start::*};
///
/// // Registers in which the ARM PLL's lock, bit 0 of the status in word 3, shows at once.
/// let mut registers = [0; 50];
/// (registers[0], registers[3]) = (0x1A008, 0b001);
/// let mut run = configure_arm_pll_unchecked(BootPllConfig::Enabled, PllConfig::new(40)?, 100)?;
/// loop {
///     let read = match run.request()? {
///         Request::Read { word } => registers[word as usize],
///         Request::Write { word, value } => {
///             registers[word as usize] = value;
///             0
///         }
///         Request::Locked => break,
///     };
///     run = run.step(read);
/// }
/// assert_eq!((registers[0], registers[4]), (0x28008, 0xFA220));
/// # Ok::<(), Refusal>(())
/// ```
#[derive(Clone, Copy, Debug, PartialEq, Eq)]
pub struct PllSequence {
    step: PllStep,
}

impl PllSequence {
    fn begun(step: PllStep) -> Result<Self, Refusal> {
        match step.refusal {
            0 => Ok(Self { step }),
            number => Err(refused(number, 0)),
        }
    }

    /// What the host is to do now. Refusal: [`Refusal::LockTimeout`] once the last poll allowed was clear.
    ///
    /// ```
    /// use ogruspinu::{Refusal, pll_settings::PllConfig, pll_start::*};
    ///
    /// let run = configure_io_pll_unchecked(BootPllConfig::Enabled, PllConfig::new(30)?, 100)?;
    /// assert_eq!(run.request(), Ok(Request::Read { word: 2 }));
    /// # Ok::<(), Refusal>(())
    /// ```
    #[inline]
    pub fn request(&self) -> Result<Request, Refusal> {
        let (word, value) = (self.step.number, self.step.value);
        match (self.step.refusal, self.step.request) {
            (0, 0) => Ok(Request::Read { word }),
            (0, 1) => Ok(Request::Write { word, value }),
            (0, _) => Ok(Request::Locked),
            (number, _) => Err(refused(number, 0)),
        }
    }

    /// The run after one step more. `word` is what the host read; after a write it is ignored, and after the end the same
    /// end comes again.
    ///
    /// ```
    /// use ogruspinu::{Refusal, pll_settings::PllConfig, pll_start::*};
    ///
    /// let run = configure_arm_pll_unchecked(BootPllConfig::Enabled, PllConfig::new(40)?, 100)?;
    /// let run = run.step(0x1A008);
    /// assert_eq!(run.request(), Ok(Request::Write { word: 0, value: 0x28008 }));
    /// assert_eq!(run.step(0).request(), Ok(Request::Read { word: 4 }));
    /// # Ok::<(), Refusal>(())
    /// ```
    #[inline]
    #[must_use]
    pub fn step(self, word: u32) -> Self {
        Self {
            step: raw::pll_step(self.step.run, word),
        }
    }
}

/// What is asked of the library, in its numbers.
pub(crate) fn plan(pll: PllType, boot: BootPllConfig, config: PllConfig, polls: u16) -> PllPlan {
    PllPlan {
        pll: pll as u8,
        bypassed: boot == BootPllConfig::Bypassed,
        fdiv: config.fdiv(),
        charge_pump: config.charge_pump(),
        loop_resistor: config.loop_resistor(),
        lock_count: config.lock_count(),
        polls,
    }
}

/// Which PLLs a once-only start has started: none at first. The original has a flag of the whole program for each.
#[derive(Clone, Copy, Debug, Default, PartialEq, Eq)]
pub struct PllMarks {
    pub arm: bool,
    pub ddr: bool,
    pub io: bool,
}

impl PllMarks {
    /// Whether a PLL is marked.
    ///
    /// ```
    /// use ogruspinu::pll_start::{PllMarks, PllType};
    ///
    /// let marks = PllMarks { ddr: true, ..PllMarks::default() };
    /// assert!(marks.is_set(PllType::Ddr) && !marks.is_set(PllType::Io));
    /// ```
    pub const fn is_set(self, pll: PllType) -> bool {
        match pll {
            PllType::Arm => self.arm,
            PllType::Ddr => self.ddr,
            PllType::Io => self.io,
        }
    }

    /// Bit 0 for ARM, 1 for DDR, 2 for IO.
    fn bits(self) -> u32 {
        u32::from(self.arm) | u32::from(self.ddr) << 1 | u32::from(self.io) << 2
    }

    fn of_bits(bits: u32) -> Self {
        let [arm, ddr, io] = [0, 1, 2].map(|bit| bits >> bit & 1 == 1);
        Self { arm, ddr, io }
    }
}

/// Starts a PLL that is not marked, and marks it: the mark stays even if the run times out. So many polls of the lock bit may
/// be made; the last of them, if clear, is already [`Refusal::LockTimeout`]. Refusals: [`Refusal::BadLimit`] for none, then
/// [`Refusal::BadField`], then [`Refusal::Already`], where the original returns silently; none changes a mark.
///
/// ```
/// use ogruspinu::{Refusal, pll_settings::PllConfig, pll_start::*};
///
/// let (boot, config) = (BootPllConfig::Enabled, PllConfig::new(40)?);
/// let mut marks = PllMarks::default();
/// let run = configure_pll(PllType::Ddr, boot, config, 100, &mut marks)?;
/// assert_eq!(run.request(), Ok(Request::Read { word: 1 }));
/// assert_eq!(marks, PllMarks { ddr: true, ..PllMarks::default() });
/// let again = configure_pll(PllType::Ddr, boot, config, 100, &mut marks);
/// assert_eq!(again, Err(Refusal::Already));
/// # Ok::<(), Refusal>(())
/// ```
pub fn configure_pll(
    pll: PllType,
    boot: BootPllConfig,
    config: PllConfig,
    polls: u16,
    marks: &mut PllMarks,
) -> Result<PllSequence, Refusal> {
    let started = raw::pll_start_once(plan(pll, boot, config, polls), marks.bits());
    let run = PllSequence::begun(started.step)?;
    *marks = PllMarks::of_bits(started.marks);
    Ok(run)
}

/// Starts a PLL whatever was started before, and marks nothing. Refusals: [`Refusal::BadLimit`], then [`Refusal::BadField`].
///
/// ```
/// use ogruspinu::{Refusal, pll_settings::PllConfig, pll_start::*};
///
/// let start = |config, polls| configure_pll_unchecked(PllType::Arm, BootPllConfig::Bypassed, config, polls);
/// assert_eq!(start(PllConfig::new(13)?, 1)?.request(), Ok(Request::Read { word: 0 }));
/// assert_eq!(start(PllConfig::new(13)?, 0), Err(Refusal::BadLimit));
/// assert_eq!(start(PllConfig::new_raw(128, 2, 6, 750), 1), Err(Refusal::BadField));
/// # Ok::<(), Refusal>(())
/// ```
pub fn configure_pll_unchecked(
    pll: PllType,
    boot: BootPllConfig,
    config: PllConfig,
    polls: u16,
) -> Result<PllSequence, Refusal> {
    PllSequence::begun(raw::pll_start(plan(pll, boot, config, polls)))
}

/// The original's functions, one for each PLL.
macro_rules! of_each_pll {
    ($($pll:ident, $name:literal, $mark:ident, $word:literal: $once:ident $unchecked:ident;)*) => {$(
        #[doc = concat!("[`configure_pll`] of the ", $name, " PLL.")]
        ///
        /// ```
        /// use ogruspinu::{Refusal, pll_settings::PllConfig, pll_start::*};
        ///
        /// let (boot, config, mut marks) = (BootPllConfig::Enabled, PllConfig::new(40)?, PllMarks::default());
        #[doc = concat!("let run = ", stringify!($once), "(boot, config, 100, &mut marks)?;")]
        #[doc = concat!("assert_eq!(run.request(), Ok(Request::Read { word: ", $word, " }));")]
        #[doc = concat!("assert!(marks.", stringify!($mark), ");")]
        #[doc = concat!("assert_eq!(", stringify!($once), "(boot, config, 100, &mut marks), Err(Refusal::Already));")]
        /// # Ok::<(), Refusal>(())
        /// ```
        pub fn $once(
            boot: BootPllConfig,
            config: PllConfig,
            polls: u16,
            marks: &mut PllMarks,
        ) -> Result<PllSequence, Refusal> {
            configure_pll(PllType::$pll, boot, config, polls, marks)
        }

        #[doc = concat!("[`configure_pll_unchecked`] of the ", $name, " PLL.")]
        ///
        /// ```
        /// use ogruspinu::{Refusal, pll_settings::PllConfig, pll_start::*};
        ///
        /// let (boot, config) = (BootPllConfig::Enabled, PllConfig::new(40)?);
        #[doc = concat!("let run = ", stringify!($unchecked), "(boot, config, 100)?;")]
        #[doc = concat!("assert_eq!(run.request(), Ok(Request::Read { word: ", $word, " }));")]
        /// # Ok::<(), Refusal>(())
        /// ```
        pub fn $unchecked(
            boot: BootPllConfig,
            config: PllConfig,
            polls: u16,
        ) -> Result<PllSequence, Refusal> {
            configure_pll_unchecked(PllType::$pll, boot, config, polls)
        }
    )*};
}

of_each_pll! {
    Arm, "ARM", arm, "0": configure_arm_pll configure_arm_pll_unchecked;
    Ddr, "DDR", ddr, "1": configure_ddr_pll configure_ddr_pll_unchecked;
    Io, "IO", io, "2": configure_io_pll configure_io_pll_unchecked;
}
