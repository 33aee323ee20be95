//! The exported functions with slices in place of pointers, and nothing else changed: what a call tells is still one
//! number or a struct of numbers, and longer answers go into lent memory of any length. The other modules are what a
//! program uses; this one serves those who want to see every lent word. `include/ogruspinu.h` says what each call is.
//!
//! ```
//! let mut out = [7; 3];
//! let told = ogruspinu::raw::two_stage(1_000_000_000, 12_288_000, 63, &mut out);
//! assert_eq!((ogruspinu::raw::halves(told), out), ((0, 0), [3, 27, 7]));
//! let told = ogruspinu::raw::two_stage(1_000_000_000, 12_288_000, 63, &mut out[..1]);
//! assert_eq!(ogruspinu::raw::halves(told), (9, 2));
//! ```
use crate::uart::BaudDivisors;

/// The lower half, 0 or a refusal's number, and the upper: what the refusal carries, or an answer of one number.
#[inline]
pub const fn halves(told: u64) -> (u32, u32) {
    (told as u32, (told >> 32) as u32)
}

/// A call is one line: its signature as the library's source has it, which `tests/c/run` at the repository's top holds it
/// to. It is declared with a pointer and a length for each slice, and defined with the slice.
macro_rules! exports {
    ($($(#[$doc:meta])* $name:ident: fn $export:ident($($given:tt)*) -> $told:ty;)*) => {$(
        exports!(@ [$(#[$doc])*] $name $export $told; [] [] []; $($given)*,);
    )*};
    (@ $doc:tt $name:ident $export:ident $told:ty; [$($c:tt)*] [$($rust:tt)*] [$($passed:tt)*]; $x:ident: &mut [$t:ty], $($rest:tt)*) => {
        exports!(@ $doc $name $export $told; [$($c)* $x: *mut $t, _: usize,] [$($rust)* $x: &mut [$t],]
            [$($passed)* $x.as_mut_ptr(), $x.len(),]; $($rest)*);
    };
    (@ $doc:tt $name:ident $export:ident $told:ty; [$($c:tt)*] [$($rust:tt)*] [$($passed:tt)*]; $x:ident: &[$t:ty], $($rest:tt)*) => {
        exports!(@ $doc $name $export $told; [$($c)* $x: *const $t, _: usize,] [$($rust)* $x: &[$t],]
            [$($passed)* $x.as_ptr(), $x.len(),]; $($rest)*);
    };
    (@ $doc:tt $name:ident $export:ident $told:ty; [$($c:tt)*] [$($rust:tt)*] [$($passed:tt)*]; $x:ident: $t:ty, $($rest:tt)*) => {
        exports!(@ $doc $name $export $told; [$($c)* $x: $t,] [$($rust)* $x: $t,] [$($passed)* $x,]; $($rest)*);
    };
    (@ [$($doc:tt)*] $name:ident $export:ident $told:ty; [$($c:tt)*] [$($rust:tt)*] [$($passed:tt)*];) => {
        unsafe extern "C" {
            fn $export($($c)*) -> $told;
        }

        $($doc)*
        #[inline]
        pub fn $name($($rust)*) -> $told {
            // SAFETY: each slice is lent for the call, with its own length, and one that is written overlaps no other.
            unsafe { $export($($passed)*) }
        }
    };
}

exports! {
    /// Both divisors, two words.
    two_stage: fn ogr_two_stage(reference: u32, target: u32, largest: u32, out: &mut [u32]) -> u64;
    /// The frequency of two divisors, 0 where one is 0.
    two_stage_frequency: fn ogr_two_stage_frequency(reference: u32, div0: u32, div1: u32) -> u32;
    /// Both register values, two words.
    i2c: fn ogr_i2c(input: u32, fast: bool, out: &mut [u32]) -> u64;
    /// The speed of two register values.
    i2c_speed: fn ogr_i2c_speed(input: u32, div_a: u8, div_b: u8) -> u32;
    /// 0 or the prescaler field plus 1, then the ticks.
    ttc: fn ogr_ttc(reference: u32, frequency: u32, out: &mut [u32]) -> u64;
    /// FDIV, charge pump, resistor, lock count.
    pll_mul: fn ogr_pll_mul(multiplier: u32, out: &mut [u32]) -> u64;
    /// FDIV, charge pump, resistor, lock count.
    pll_target: fn ogr_pll_target(crystal: u32, target: u32, out: &mut [u32]) -> u64;
    /// Clock divisor, baud divider, the error's bits.
    uart: fn ogr_uart(reference: u32, baud: u32, out: &mut [u32]) -> u64;
    /// The upper half is how many viable pairs were written.
    uart_list: fn ogr_uart_list(reference: u32, baud: u32, records: &mut [BaudDivisors]) -> u64;
    /// An evaluation's words.
    clocks: fn ogr_clocks(crystal: u32, image: &[u32], out: &mut [u32]) -> u64;
    /// The ratios of the four PL clocks: numerator and denominator of each, in row order.
    ratios: fn ogr_ratios(crystal: u32, image: &[u32], out: &mut [u64]) -> u64;
    /// Sets IO clock `which` in an evaluation's words.
    io_update: fn ogr_io_update(which: u32, hertz: u32, clocks: &mut [u32]) -> u64;
    /// The reference clock of GEM 0 or 1 of an evaluation's words and of the controller's: one word.
    gem: fn ogr_gem(second: bool, word: u32, clocks: &[u32], out: &mut [u32]) -> u64;
    /// 1x, 2x, 3x2x, 6x4x.
    cpu_init: fn ogr_cpu_init(pll: u32, six: bool, divisor: u32, out: &mut [u32]) -> u64;
    /// 3x, 2x.
    ddr_init: fn ogr_ddr_init(reference: u32, div_3x: u32, div_2x: u32, out: &mut [u32]) -> u64;
    /// A run after its first step, whatever was started before.
    pll_start: fn ogr_pll_start(plan: PllPlan) -> PllStep;
    /// The same once only, with the marks after it.
    pll_start_once: fn ogr_pll_start_once(plan: PllPlan, marks: u32) -> PllStarted;
    /// A run after one step more; `word` is what the host read.
    pll_step: fn ogr_pll_step(run: PllRun, word: u32) -> PllStep;
    /// A whole run over the words that the registers give when read. Each access is written to three rows, which have to be
    /// six words longer than these: 0 for a read or 1 for a write, the image's word, the value.
    pll_seq: fn ogr_pll_seq(plan: PllPlan, reads: &[u32], kinds: &mut [u32], numbers: &mut [u32], values: &mut [u32]) -> PllRan;
    /// A trace with a part more: the counts of both channels, in rows of one length.
    trace_feed: fn ogr_trace_feed(trace: Trace, first: &[u16], second: &[u16]) -> TraceFed;
    /// The first total less the second, or the largest number with its sign.
    trace_difference: fn ogr_trace_difference(trace: Trace) -> i64;
}

/// What a run of the PLL sequence is to do.
#[repr(C)]
#[derive(Clone, Copy, Debug, PartialEq, Eq)]
pub struct PllPlan {
    /// 0 ARM, 1 DDR, 2 IO.
    pub pll: u8,
    pub bypassed: bool,
    pub fdiv: u8,
    pub charge_pump: u8,
    pub loop_resistor: u8,
    pub lock_count: u16,
    /// How many polls may be made; the last of them, if clear, is already refusal 11.
    pub polls: u16,
}

/// A run between two steps.
#[repr(C)]
#[derive(Clone, Copy, Debug, PartialEq, Eq)]
pub struct PllRun {
    /// Its polls are those that are left.
    pub plan: PllPlan,
    /// How many rows of document 01's sequence are done; 255 where a start was refused.
    pub done: u8,
    /// What was last read or written.
    pub word: u32,
}

/// What a start or a step gives.
#[repr(C)]
#[derive(Clone, Copy, Debug, PartialEq, Eq)]
pub struct PllStep {
    /// 0 or a refusal's number.
    pub refusal: u32,
    /// 0 to read, 1 to write, 2 where the PLL has locked, 3 where the call refused.
    pub request: u32,
    /// The image's word to be read or written, else 0.
    pub number: u32,
    /// What is to be written there, else 0.
    pub value: u32,
    pub run: PllRun,
}

/// What a once-only start gives.
#[repr(C)]
#[derive(Clone, Copy, Debug, PartialEq, Eq)]
pub struct PllStarted {
    pub step: PllStep,
    /// Bit 0 is ARM's, 1 DDR's, 2 IO's.
    pub marks: u32,
}

/// What a recorded run gives.
#[repr(C)]
#[derive(Clone, Copy, Debug, PartialEq, Eq)]
pub struct PllRan {
    /// 0 or a refusal's number.
    pub refusal: u32,
    /// 0 locked, 1 timed out, 2 starved; 0 where refused.
    pub end: u32,
    /// How many there are; with refusal 9 how long the rows have to be.
    pub accesses: usize,
}

/// A channel of a trace.
#[repr(C)]
#[derive(Clone, Copy, Debug, Default, PartialEq, Eq)]
pub struct TraceChannel {
    /// Ticks since the first sample.
    pub total: u64,
    /// The last count.
    pub last: u16,
}

/// The most ticks by which one channel was ahead of the other.
#[repr(C)]
#[derive(Clone, Copy, Debug, Default, PartialEq, Eq)]
pub struct TraceLead {
    /// 0 where it never was.
    pub ticks: u64,
    /// The first sample at which it was so many, counted from 0 over the whole trace.
    pub at: u32,
}

/// A trace so far, all zeros at first. Every value of it is taken.
#[repr(C)]
#[derive(Clone, Copy, Debug, Default, PartialEq, Eq)]
pub struct Trace {
    pub samples: u32,
    pub first: TraceChannel,
    pub second: TraceChannel,
    pub first_leads: TraceLead,
    pub second_leads: TraceLead,
}

/// What a part of a trace gives.
#[repr(C)]
#[derive(Clone, Copy, Debug, PartialEq, Eq)]
pub struct TraceFed {
    /// 0 or a refusal's number.
    pub refusal: u32,
    /// As given where refused.
    pub trace: Trace,
}
