//! PLL settings, the configuration sequence as a log of its accesses, and once-only starts.
use crate::BootMode;
use crate::clocks::pll::{self, PllConfig, PllConfigCtorError};
use crate::time::Hertz;
use arbitrary_int::{u4, u7, u10};
use device::{Access, WORDS};
use std::sync::OnceLock;

/// FDIV, charge pump, resistor and lock count.
pub type Setting = [u32; 4];

#[derive(Debug, Clone, Copy, PartialEq, Eq)]
pub enum Pll {
    Arm,
    Ddr,
    Io,
}

/// Why there is no setting.
#[derive(Debug, Clone, Copy, PartialEq, Eq)]
pub enum Refused {
    ZeroInput,
    Multiplier(u32),
}

/// The setting of a multiplier, in the original's own type.
#[inline(never)]
pub fn mul_setting(multiplier: u32) -> Result<PllConfig, Refused> {
    PllConfig::new(multiplier).map_err(|why| Refused::Multiplier(why.0))
}

/// The setting that comes nearest to a target from below, in the original's own type.
#[inline(never)]
pub fn target_setting(crystal: u32, target: u32) -> Result<PllConfig, Refused> {
    PllConfig::new_from_target_clock(Hertz::from_raw(crystal), Hertz::from_raw(target)).map_err(
        |why| match why {
            PllConfigCtorError::InvalidInput => Refused::ZeroInput,
            PllConfigCtorError::MulOutOfRange(why) => Refused::Multiplier(why.0),
        },
    )
}

/// The four numbers of a setting. The original keeps them private, so they are read off the two words that
/// its sequence writes first when every word read is 0.
pub fn fields(setting: PllConfig) -> Setting {
    let (log, _) = configured(Pll::Arm, false, false, setting, &[0, 0]);
    let written = |entry: &Access| match *entry {
        Access::Write { value, .. } => Some(value),
        Access::Read { .. } => None,
    };
    let words: Vec<u32> = log.iter().filter_map(written).collect();
    let (control, configuration) = (words[0], words[1]);
    let lock_count = configuration >> 12;
    [
        control >> 12,
        configuration >> 8 & 15,
        configuration >> 4 & 15,
        lock_count,
    ]
}

/// The accesses of the sequence when the host returns `reads` in order, and whether it came to its end.
pub fn run(pll: Pll, bypassed: bool, setting: Setting, reads: &[u32]) -> (Vec<Access>, bool) {
    configured(pll, false, bypassed, raw(setting), reads)
}

/// The sequence where each read gives a word of the image, which shows the lock, and each write goes nowhere.
#[inline(never)]
pub fn run_in_place(pll: Pll, bypassed: bool, setting: Setting, image: &[u32; WORDS]) {
    let mode = BootMode::new(bypassed);
    device::reading(image, || unchecked(pll, mode, raw(setting)));
}

/// As [`run`], by the once-only start: no access at all where the PLL was started before.
pub fn start(pll: Pll, bypassed: bool, setting: Setting, reads: &[u32]) -> (Vec<Access>, bool) {
    configured(pll, true, bypassed, raw(setting), reads)
}

/// Forgets on this thread which PLLs were started.
pub fn new_device() {
    device::clear_marks();
}

/// Which PLLs are marked as started on this thread: bit 0 for ARM, 1 for DDR, 2 for IO.
pub fn marks() -> u32 {
    let set = device::marks();
    let bit = |(bit, address)| u32::from(set.contains(address)) << bit;
    mark_addresses().iter().enumerate().map(bit).sum()
}

/// The original keeps its marks private, and a mark's address is its name: so each is learned from a start of its PLL, on a
/// thread whose device nobody else uses.
fn mark_addresses() -> &'static [usize; 3] {
    static ADDRESSES: OnceLock<[usize; 3]> = OnceLock::new();
    let learned = |pll| {
        new_device();
        start(pll, false, [0; 4], &[]);
        device::marks()[0]
    };
    ADDRESSES.get_or_init(|| {
        let all = move || [Pll::Arm, Pll::Ddr, Pll::Io].map(learned);
        std::thread::spawn(all)
            .join()
            .expect("a start marks its PLL")
    })
}

fn raw([fdiv, charge_pump, resistor, lock_count]: Setting) -> PllConfig {
    PllConfig::new_raw(
        u7::new(fdiv as u8),
        u4::new(charge_pump as u8),
        u4::new(resistor as u8),
        u10::new(lock_count as u16),
    )
}

fn configured(
    pll: Pll,
    once: bool,
    bypassed: bool,
    setting: PllConfig,
    reads: &[u32],
) -> (Vec<Access>, bool) {
    let mode = BootMode::new(bypassed);
    let (log, end) = device::scripted(reads, || match (once, pll) {
        (true, Pll::Arm) => pll::configure_arm_pll(mode, setting),
        (true, Pll::Ddr) => pll::configure_ddr_pll(mode, setting),
        (true, Pll::Io) => pll::configure_io_pll(mode, setting),
        (false, pll) => unchecked(pll, mode, setting),
    });
    (log, end.is_some())
}

fn unchecked(pll: Pll, mode: BootMode, setting: PllConfig) {
    // SAFETY: there is no PLL behind the stand-in registers.
    unsafe {
        match pll {
            Pll::Arm => pll::configure_arm_pll_unchecked(mode, setting),
            Pll::Ddr => pll::configure_ddr_pll_unchecked(mode, setting),
            Pll::Io => pll::configure_io_pll_unchecked(mode, setting),
        }
    }
}
