//! The searches for divisors: two-stage, I2C, TTC and UART.
use crate::i2c::{ClockConfig, Speed, calculate_divisors, calculate_i2c_speed};
use crate::time::Hertz;
use crate::uart::{BaudDivisors, best_baud_divisors, viable_baud_divisors};
use crate::{fpga, ttc};
use std::panic::catch_unwind;

/// A UART pair: clock divisor, baud divider and the error's bits.
pub type Baud = (u16, u8, u32);

/// The one input on which the original's sum `ideal_div1 + 1` overflows.
const TWO_STAGE_OVERFLOW: (u32, u32, u32) = (u32::MAX, 1, u32::MAX);

/// Both divisors, or none on the one input where the original panics. Neither target nor largest may be 0.
#[inline(never)]
pub fn two_stage(reference: u32, target: u32, largest: u32) -> Option<(u32, u32)> {
    let find = || {
        let pair = fpga::find_two_stage_divisors(hertz(reference), hertz(target), largest);
        (pair.div0, pair.div1)
    };
    if (reference, target, largest) == TWO_STAGE_OVERFLOW {
        return catch_unwind(find).ok();
    }
    Some(find())
}

/// The register values, or none where the speed cannot be had.
#[inline(never)]
pub fn i2c(reference: u32, fast: bool) -> Option<(u8, u8)> {
    let speed = if fast {
        Speed::HighSpeed400KHz
    } else {
        Speed::Normal100kHz
    };
    let found = calculate_divisors(hertz(reference), speed).ok()?;
    Some((found.div_a(), found.div_b()))
}

/// The speed that raw register values give.
#[inline(never)]
pub fn i2c_speed(reference: u32, a: u8, b: u8) -> u32 {
    calculate_i2c_speed(hertz(reference), ClockConfig::new(a, b)).to_raw()
}

/// The prescaler field, if any, and the ticks. The frequency may not be 0.
#[inline(never)]
pub fn ttc_interval(reference: u32, frequency: u32) -> (Option<u8>, u16) {
    let (prescaler, ticks) =
        ttc::calc_prescaler_reg_and_interval_ticks(hertz(reference), hertz(frequency));
    (prescaler.map(|field| field.value()), ticks)
}

/// The best pair, or none where the original gives its stand-in triple: no candidate has divider 0.
#[inline(never)]
pub fn uart(reference: u32, baud: u32) -> Option<Baud> {
    let best = best_baud_divisors(hertz(reference), baud);
    (best.bdiv != 0).then(|| numbers(&best))
}

/// Every viable pair, in the original's own type.
#[inline(never)]
pub fn uart_viable(reference: u32, baud: u32) -> Vec<BaudDivisors> {
    viable_baud_divisors(hertz(reference), baud)
}

/// Every viable pair.
pub fn uart_list(reference: u32, baud: u32) -> Vec<Baud> {
    let viable = uart_viable(reference, baud);
    viable.iter().map(numbers).collect()
}

fn numbers(pair: &BaudDivisors) -> Baud {
    (pair.cd, pair.bdiv, pair.error.to_bits())
}

fn hertz(raw: u32) -> Hertz {
    Hertz::from_raw(raw)
}
