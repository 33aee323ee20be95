//! The evaluation of an image, the GEM clocks, and the pure parts of the CPU and DDR set-up.
use crate::clocks::{ArmClocks, ClockReadError, Clocks, CpuClockRatio, DdrClocks};
use crate::time::Hertz;
use arbitrary_int::u6;
use device::WORDS;

/// How many numbers an evaluation gives: 25 in the desk's order, and behind the trace clock whether it is EMIO's.
pub const CLOCK_NUMBERS: usize = 26;
/// Where that number stands; it is 1 where there is no trace clock, and the trace number is 0 then.
pub const EMIO: usize = 21;

/// GEM words that pass the IO, ARM and DDR PLL on undivided.
const UNDIVIDED: [u32; 3] = [0x0010_0100, 0x0010_0120, 0x0010_0130];
/// The image word of GEM 0.
const GEM_0: usize = 16;

/// An evaluated image in the original's own type, or the module whose divisor is 0. No PLL's product may
/// overflow.
#[inline(never)]
pub fn evaluate(crystal: u32, image: &[u32; WORDS]) -> Result<Clocks, u32> {
    device::reading(image, || evaluated(crystal))
}

/// All numbers of an evaluated image, or the module whose divisor is 0.
pub fn clocks(crystal: u32, image: &[u32; WORDS]) -> Result<[u32; CLOCK_NUMBERS], u32> {
    evaluate(crystal, image).map(|clocks| numbers(&clocks))
}

/// The numbers of an evaluated image after one IO clock was updated by hand.
pub fn updated(
    which: u32,
    hertz: u32,
    crystal: u32,
    image: &[u32; WORDS],
) -> Result<[u32; CLOCK_NUMBERS], u32> {
    let mut clocks = evaluate(crystal, image)?;
    update(which, hertz, &mut clocks);
    Ok(numbers(&clocks))
}

/// Puts another frequency into a record; `which` counts SMC, QSPI, SDIO, UART, SPI, CAN, PCAP from 0.
#[inline(never)]
pub fn update(which: u32, hertz: u32, clocks: &mut Clocks) {
    let (io, hertz) = (clocks.io_clocks_mut(), Hertz::from_raw(hertz));
    match which {
        0 => io.update_smc_clk(hertz),
        1 => io.update_qspi_clk(hertz),
        2 => io.update_sdio_clk(hertz),
        3 => io.update_uart_clk(hertz),
        4 => io.update_spi_clk(hertz),
        5 => io.update_can_clk(hertz),
        _ => io.update_pcap_2x_clk(hertz),
    }
}

/// The reference clock of GEM 0 or 1, or the module whose divisor is 0.
#[inline(never)]
pub fn gem(second: bool, crystal: u32, image: &[u32; WORDS]) -> Result<u32, u32> {
    device::reading(image, || {
        let clocks = evaluated(crystal)?;
        let clock = if second {
            clocks.calculate_gem_1_ref_clock()
        } else {
            clocks.calculate_gem_0_ref_clock()
        };
        clock
            .map(|clock| clock.to_raw())
            .map_err(|why| why.0 as u32)
    })
}

/// 1x, 2x, 3x2x and 6x4x of the CPU set-up, whose register writes go nowhere. The divisor is 1 to 63.
#[inline(never)]
pub fn cpu_init(pll: u32, six: bool, divisor: u32) -> [u32; 4] {
    let ratio = if six {
        CpuClockRatio::SixToTwoToOne
    } else {
        CpuClockRatio::FourToTwoToOne
    };
    let divisor = u6::new(divisor as u8);
    // SAFETY: there is no CPU behind the stand-in registers.
    let arm = unsafe { ArmClocks::new_with_cpu_clock_init(Hertz::from_raw(pll), ratio, divisor) };
    cpu_numbers(&arm)
}

/// 3x and 2x of the DDR set-up, whose register writes go nowhere. The divisors are 1 to 63.
#[inline(never)]
pub fn ddr_init(reference: u32, div_3x: u32, div_2x: u32) -> [u32; 2] {
    let (div_3x, div_2x) = (u6::new(div_3x as u8), u6::new(div_2x as u8));
    // SAFETY: there is no DDR controller behind the stand-in registers.
    let ddr = unsafe { DdrClocks::new_with_2x_3x_init(Hertz::from_raw(reference), div_3x, div_2x) };
    [ddr.ddr_3x_clk().to_raw(), ddr.ddr_2x_clk().to_raw()]
}

fn evaluated(crystal: u32) -> Result<Clocks, u32> {
    Clocks::new_from_regs(Hertz::from_raw(crystal)).map_err(|why| match why {
        ClockReadError::DivisorZero(zero) => zero.0 as u32,
        ClockReadError::DivisorNotEven => unreachable!("declared in the original, never given"),
    })
}

fn cpu_numbers(arm: &ArmClocks) -> [u32; 4] {
    [
        arm.cpu_1x_clk().to_raw(),
        arm.cpu_2x_clk().to_raw(),
        arm.cpu_3x2x_clk().to_raw(),
        arm.cpu_6x4x_clk().to_raw(),
    ]
}

fn numbers(clocks: &Clocks) -> [u32; CLOCK_NUMBERS] {
    let (arm, ddr, io) = (clocks.arm_clocks(), clocks.ddr_clocks(), clocks.io_clocks());
    let [io_pll, arm_pll, ddr_pll] = UNDIVIDED.map(|word| pll_output(clocks, word));
    let [one, two, three, six] = cpu_numbers(arm);
    let [fpga0, fpga1, fpga2, fpga3] = clocks.pl_clocks().map(|clock| clock.to_raw());
    let trace = io.trace_clk();
    [
        arm_pll,
        io_pll,
        ddr_pll,
        arm.ref_clk().to_raw(),
        arm.ratio() as u32,
        one,
        two,
        three,
        six,
        ddr.ref_clk().to_raw(),
        ddr.ddr_3x_clk().to_raw(),
        ddr.ddr_2x_clk().to_raw(),
        io.ref_clk().to_raw(),
        io.smc_clk().to_raw(),
        io.qspi_clk().to_raw(),
        io.sdio_clk().to_raw(),
        io.uart_clk().to_raw(),
        io.spi_clk().to_raw(),
        io.can_clk().to_raw(),
        io.pcap_2x_clk().to_raw(),
        trace.map_or(0, |clock| clock.to_raw()),
        u32::from(trace.is_none()),
        fpga0,
        fpga1,
        fpga2,
        fpga3,
    ]
}

/// The record keeps its PLLs' outputs private, but a GEM clock shows them.
fn pll_output(clocks: &Clocks, gem_word: u32) -> u32 {
    let mut image = [0; WORDS];
    image[GEM_0] = gem_word;
    let shown = device::reading(&image, || clocks.calculate_gem_0_ref_clock());
    shown.expect("both divisors are 1").to_raw()
}
