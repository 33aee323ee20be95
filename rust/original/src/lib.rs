//! The original, unchanged, behind calls in plain numbers.
//!
//! The crate's root stands in for the roots of both original crates, so that `crate::slcr`, `crate::time` and
//! `crate::BootMode` are found. The calls that are timed are never inlined, as a call of the static library
//! cannot be. Where the original's source was not at hand the crate is empty.
#![cfg(original)]

extern crate alloc;
// The sequence's volatile accesses and its marks are seen by giving `core` another meaning here.
extern crate logged_core as core;

include!(concat!(env!("OUT_DIR"), "/modules.rs"));

/// The one function of the timer's file that is moved.
#[allow(warnings, clippy::all)]
pub mod ttc {
    use crate::time::Hertz;
    use arbitrary_int::{prelude::*, u4};

    include!(concat!(env!("OUT_DIR"), "/ttc_function.rs"));
}

mod boot;
mod divisors;
mod evaluation;
mod pll;

pub use boot::BootMode;
pub use device::{Access, WORDS};
pub use divisors::{Baud, i2c, i2c_speed, ttc_interval, two_stage, uart, uart_list, uart_viable};
pub use evaluation::{
    CLOCK_NUMBERS, EMIO, clocks, cpu_init, ddr_init, evaluate, gem, update, updated,
};
pub use pll::{
    Pll, Refused, Setting, fields, marks, mul_setting, new_device, run, run_in_place, start,
    target_setting,
};
