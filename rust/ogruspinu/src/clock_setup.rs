//! The CPU's and the DDR memory's clocks after their set-up: the original's calls without their register writes.
use crate::clocks::{ArmClocks, CpuClockRatio, DdrClocks};
use crate::raw;
use crate::refusal::{Refusal, words};
use crate::time::Hertz;

/// The CPU's clocks from the ARM PLL's output. 2x and 3x2x are multiples of 1x here, and not quotients as in an evaluation.
/// Refusals: [`Refusal::DivisorZero`] of Arm, [`Refusal::BadField`] for a divisor over 63.
///
/// ```
/// use ogruspinu::{Refusal, clock_setup::new_with_cpu_clock_init, clocks::CpuClockRatio, time::Hertz};
///
/// let (pll, ratio) = (Hertz::from_raw(1_333_333_320), CpuClockRatio::SixToTwoToOne);
/// let arm = new_with_cpu_clock_init(pll, ratio, 2)?;
/// assert_eq!(arm.cpu_6x4x_clk().to_raw(), 666_666_660);
/// assert_eq!(arm.cpu_3x2x_clk().to_raw(), 333_333_330);
/// assert_eq!(arm.cpu_2x_clk().to_raw(), 222_222_220);
/// assert_eq!(arm.cpu_1x_clk().to_raw(), 111_111_110);
/// assert_eq!(new_with_cpu_clock_init(pll, ratio, 64), Err(Refusal::BadField));
/// # Ok::<(), Refusal>(())
/// ```
#[inline]
pub fn new_with_cpu_clock_init(
    arm_pll_clk: Hertz,
    clock_ratio: CpuClockRatio,
    divisor: u32,
) -> Result<ArmClocks, Refusal> {
    let six = clock_ratio == CpuClockRatio::SixToTwoToOne;
    let clocks = words(|out| raw::cpu_init(arm_pll_clk.to_raw(), six, divisor, out))?;
    Ok(ArmClocks::with(arm_pll_clk, clock_ratio, clocks))
}

/// The DDR's clocks: the reference over each divisor. Refusals: [`Refusal::DivisorZero`] of Ddr, [`Refusal::BadField`] for
/// a divisor over 63.
///
/// ```
/// use ogruspinu::{Refusal, clock_setup::new_with_2x_3x_init, clocks::ClockModuleId, time::Hertz};
///
/// let reference = Hertz::from_raw(1_066_666_656);
/// let ddr = new_with_2x_3x_init(reference, 2, 3)?;
/// assert_eq!(ddr.ddr_3x_clk().to_raw(), 533_333_328);
/// assert_eq!(ddr.ddr_2x_clk().to_raw(), 355_555_552);
/// let zero = new_with_2x_3x_init(reference, 64, 0);
/// assert_eq!(zero, Err(Refusal::DivisorZero(ClockModuleId::Ddr)));
/// # Ok::<(), Refusal>(())
/// ```
#[inline]
pub fn new_with_2x_3x_init(
    ref_clk: Hertz,
    ddr_3x_div: u32,
    ddr_2x_div: u32,
) -> Result<DdrClocks, Refusal> {
    let clocks = words(|out| raw::ddr_init(ref_clk.to_raw(), ddr_3x_div, ddr_2x_div, out))?;
    Ok(DdrClocks::with(ref_clk, clocks))
}
