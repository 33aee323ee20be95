//! The clock arithmetic of a Zynq-7000, proved, for Rust: a safe crate over the static library.
//!
//! Frequencies are whole Hertz, and every quotient is rounded down. A module is named as the library's crate, the C function
//! and the desk's request are. Inside, a call that moved from zynq7000-rs has the original's name and meaning, with these
//! changes throughout:
//!
//! - What the original's five error types say, and what it leaves to a panic, an endless wait or a silent return, is one
//!   [`Refusal`] with document 01's number.
//! - Registers are an image of 50 words that the caller read, or a run that asks for one access after the other; so GEM
//!   takes a record and the controller's word, a start takes how many polls may be made, and `PllMarks` keeps what was
//!   started.
//! - Numbers are plain: a setting or divisor too wide for its field is refused when it is used. [`time::Hertz`] is a number
//!   with a unit, without the arithmetic that the original's has.
//! - A record gives its parts by value, and `IoClocksMut` has the updates.
//!
//! | Module | Names of the original's | Our own |
//! |---|---|---|
//! | [`two_stage`] | `fpga`: `find_two_stage_divisors`, `DivisorPair` | `two_stage_frequency` |
//! | [`i2c`] | all | |
//! | [`ttc`] | all | |
//! | [`uart`] | all but | `viable_baud_divisors_into`, `MOST_PAIRS` |
//! | [`pll_settings`] | `clocks::pll`: `PllConfig` and its constructors, `PLL_MUL_MIN`, `PLL_MUL_MAX` | its getters |
//! | [`clocks`] | `Clocks`, its parts and getters, `ClockModuleId` | `IMAGE_WORDS`, `IoClocksMut`, the PLLs' outputs |
//! | [`ratios`] | none | all |
//! | [`gem`] | `Clocks::calculate_gem_0_ref_clock` and `.._1_..`, functions here | |
//! | [`clock_setup`] | `ArmClocks::new_with_cpu_clock_init`, `DdrClocks::new_with_2x_3x_init`, functions here | |
//! | [`pll_start`] | `clocks::pll`: `configure_arm_pll` and its five sisters, `BootPllConfig`, `PllType` | all else |
//! | [`pll_seq`] | none | all |
//! | [`trace`] | none | all |
//!
//! The library is for x86-64 Linux. Where it was not at hand when this was built, the crate is empty, and the build said
//! what was missing.
#![cfg_attr(archive, doc = include_str!("example.md"))]
#![cfg(archive)]

pub mod clock_setup;
pub mod clocks;
pub mod gem;
pub mod i2c;
pub mod pll_seq;
pub mod pll_settings;
pub mod pll_start;
pub mod ratios;
pub mod raw;
mod refusal;
pub mod time;
pub mod trace;
pub mod ttc;
pub mod two_stage;
pub mod uart;

pub use refusal::Refusal;
