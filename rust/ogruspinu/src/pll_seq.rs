//! The whole PLL sequence, recorded over words that were read or will be. The original has no such call.
use crate::pll_settings::PllConfig;
use crate::pll_start::{BootPllConfig, PllType, plan};
use crate::raw;
use crate::refusal::{Refusal, refused};

/// Writes of a sequence that comes to its end; every other access is a read.
const WRITES: usize = 6;

/// One access to a word of the image.
#[derive(Clone, Copy, Debug, PartialEq, Eq)]
pub enum Access {
    Read { word: u32, value: u32 },
    Write { word: u32, value: u32 },
}

/// How a run ended.
#[derive(Clone, Copy, Debug, PartialEq, Eq)]
pub enum End {
    /// The lock was seen, and the PLL is in use.
    Locked,
    /// Every poll allowed was clear.
    TimedOut,
    /// Another word was to be read, and there was none.
    Starved,
}

/// A run, from its first access to its end.
#[derive(Clone, Debug, PartialEq, Eq)]
pub struct Recorded {
    pub end: End,
    pub accesses: Vec<Access>,
}

/// Records a run over the words that the registers give when read, in order, with so many polls of the lock bit at most.
/// Nothing is marked as started. Refusals: [`Refusal::BadLimit`] for no polls, then [`Refusal::BadField`]. The library's third,
/// [`Refusal::NoRoom`], does not come up here, since the rows are made long enough; [`raw::pll_seq`] lends them.
///
/// ```
/// use ogruspinu::{Refusal, pll_seq::{Access, End, record}, pll_settings::PllConfig};
/// use ogruspinu::pll_start::{BootPllConfig, PllType};
///
/// let config = PllConfig::new(40)?;
/// let reads = [0x1A008, 0x177EA0, 0x28008, 0x28018, 0b110, 0b111, 0x28018];
/// let run = record(PllType::Arm, BootPllConfig::Enabled, config, 2, &reads)?;
/// assert_eq!((run.end, run.accesses.len()), (End::Locked, 13));
/// assert_eq!(run.accesses[1], Access::Write { word: 0, value: 0x28008 });
/// assert_eq!(run.accesses[3], Access::Write { word: 4, value: 0xFA220 });
/// assert_eq!(run.accesses[12], Access::Write { word: 0, value: 0x28008 });
/// let run = record(PllType::Arm, BootPllConfig::Enabled, config, 1, &reads)?;
/// assert_eq!((run.end, run.accesses.len()), (End::TimedOut, 10));
/// # Ok::<(), Refusal>(())
/// ```
pub fn record(
    pll: PllType,
    boot: BootPllConfig,
    config: PllConfig,
    polls: u16,
    reads: &[u32],
) -> Result<Recorded, Refusal> {
    let most = reads.len() + WRITES;
    let [mut kinds, mut numbers, mut values] = [0; 3].map(|blank| vec![blank; most]);
    let plan = plan(pll, boot, config, polls);
    let ran = raw::pll_seq(plan, reads, &mut kinds, &mut numbers, &mut values);
    let end = match (ran.refusal, ran.end) {
        (0, 0) => End::Locked,
        (0, 1) => End::TimedOut,
        (0, _) => End::Starved,
        (number, _) => return Err(refused(number, ran.accesses as u32)),
    };
    let entry = |i| access(kinds[i], numbers[i], values[i]);
    let accesses = (0..ran.accesses).map(entry).collect();
    Ok(Recorded { end, accesses })
}

fn access(kind: u32, word: u32, value: u32) -> Access {
    match kind {
        0 => Access::Read { word, value },
        _ => Access::Write { word, value },
    }
}
