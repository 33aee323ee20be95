//! An evaluation as the library has it. `include/ogruspinu.h` names the same words.
use crate::time::Hertz;

/// How many words there are.
pub(super) const WORDS: usize = 26;
pub(super) type Row = [u32; WORDS];

/// The place of each, of the first where several of a kind follow each other.
pub(super) const ARM_PLL: usize = 0;
pub(super) const IO_PLL: usize = 1;
pub(super) const DDR_PLL: usize = 2;
/// Reference, ratio, 1x, 2x, 3x2x, 6x4x.
pub(super) const CPU: usize = 3;
/// Reference, 3x, 2x.
pub(super) const DDR: usize = 9;
/// Reference, then those that can be updated, from SMC to PCAP.
pub(super) const IO: usize = 12;
pub(super) const TRACE: usize = 20;
pub(super) const TRACE_EMIO: usize = 21;
pub(super) const FPGA: usize = 22;

/// So many clocks from a place on.
#[inline]
pub(super) fn clocks<const N: usize>(row: &Row, from: usize) -> [Hertz; N] {
    std::array::from_fn(|i| Hertz::from_raw(row[from + i]))
}
