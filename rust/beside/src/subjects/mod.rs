//! The subjects, a file each. A new one is its file and its two lines here.

/// The faults of a formula that can be told to slip: each by its name and by the field of the formula's `Slips`.
macro_rules! planted {
    ($($name:literal: $slip:ident;)*) => {
        vec![$($crate::subject::Fault($name, |n| {
            let slips = Slips { $slip: true, ..Slips::default() };
            slips.told(n)
        })),*]
    };
}

mod bypass;
mod clocks;
mod cpu_init;
mod ddr_init;
mod gem;
mod i2c;
mod i2c_speed;
mod image;
mod pll_mul;
mod pll_seq;
mod pll_target;
mod ratios;
mod ratios_by_hand;
mod starts;
mod starts_formula;
#[cfg(archive)]
mod stepping;
mod trace;
mod trace_by_hand;
mod trace_formula;
#[cfg(test)]
mod trace_kinds;
mod trace_requests;
mod ttc;
mod two_stage;
mod two_stage_frequency;
mod two_stage_large;
mod uart;
mod uart_formula;
mod uart_list;
mod update;

use crate::subject::Subject;

/// In the order in which the desk's list has them.
pub const SUBJECTS: &[&dyn Subject] = &[
    &two_stage::TwoStage,
    &two_stage_large::TwoStageLarge,
    &two_stage_frequency::TwoStageFrequency,
    &i2c::I2c,
    &i2c_speed::I2cSpeed,
    &ttc::Ttc,
    &pll_mul::PllMul,
    &pll_target::PllTarget,
    &uart::Uart,
    &uart_list::UartList,
    &pll_seq::PllSeq,
    &starts::Starts,
    &cpu_init::CpuInit,
    &ddr_init::DdrInit,
    &clocks::Clocks,
    &gem::Gem,
    &ratios::Ratios,
    &update::Update,
    &trace::Trace,
];
