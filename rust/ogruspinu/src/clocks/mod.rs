//! Every clock of an image of the SLCR's clock registers.
mod arm;
mod ddr;
mod io;
mod module;
mod row;

use crate::raw;
use crate::refusal::{Refusal, words};
use crate::time::Hertz;
pub use arm::{ArmClocks, CpuClockRatio};
pub use ddr::DdrClocks;
pub use io::{IoClocks, IoClocksMut};
pub use module::ClockModuleId;
use row::{ARM_PLL, DDR_PLL, FPGA, IO_PLL, Row};

/// Words of an image; word `i` is the SLCR register at offset 0x100 + 4i.
pub const IMAGE_WORDS: usize = 50;

/// What an image gives: an evaluated record.
///
/// ```
/// use ogruspinu::{Refusal, clocks::Clocks, gem::calculate_gem_0_ref_clock, time::Hertz};
///
/// // Every PLL times 1, every divisor 1, and a two-stage divider of 3 and 27.
/// let mut image = [0; 50];
/// image[..3].fill(0x1000);
/// image[9] = 0x0410_0000;
/// for word in [8, 16, 17, 18, 19, 20, 21, 22, 23, 25, 26, 32, 36, 40] {
///     image[word] = 0x0010_0100;
/// }
/// image[28] = 0x01B0_0300;
/// let mut clocks = Clocks::new_from_regs(Hertz::from_raw(1_000_000_000), &image)?;
/// assert_eq!(clocks.pl_clocks()[0].to_raw(), 12_345_679);
/// assert_eq!(clocks.arm_clocks().cpu_1x_clk().to_raw(), 250_000_000);
/// assert_eq!(clocks.ddr_clocks().ddr_3x_clk().to_raw(), 1_000_000_000);
/// assert_eq!(clocks.io_clocks().trace_clk(), Some(Hertz::from_raw(1_000_000_000)));
/// assert_eq!(calculate_gem_0_ref_clock(&clocks, image[16])?.to_raw(), 1_000_000_000);
/// clocks.io_clocks_mut().update_uart_clk(Hertz::from_raw(50_000_000));
/// assert_eq!(clocks.io_clocks().uart_clk().to_raw(), 50_000_000);
/// # Ok::<(), Refusal>(())
/// ```
#[derive(Clone, Copy, Debug, PartialEq, Eq)]
pub struct Clocks {
    ps_clk: Hertz,
    row: Row,
}

impl Clocks {
    /// Evaluates an image, where the original reads the registers themselves. A PLL gives the crystal times FDIV, or the
    /// crystal itself where it is bypassed: where bit 4 of its control word is 1. The original knows no bypass.
    ///
    /// Refusals: [`Refusal::BadImage`]; [`Refusal::DivisorZero`] of the PLLs; [`Refusal::Overflow`];
    /// [`Refusal::DivisorZero`] of the first module in the order Arm, Ddr, Smc, Qspi, Sdio, Uart, Spi, Pcap, Can,
    /// Trace, Fpga.
    ///
    /// ```
    /// use ogruspinu::{Refusal, clocks::{ClockModuleId, Clocks}, time::Hertz};
    ///
    /// let crystal = Hertz::from_raw(33_333_333);
    /// assert_eq!(Clocks::new_from_regs(crystal, &[0; 49]), Err(Refusal::BadImage));
    /// let dark = Clocks::new_from_regs(crystal, &[0; 50]);
    /// assert_eq!(dark, Err(Refusal::DivisorZero(ClockModuleId::Pll)));
    /// ```
    ///
    /// An IO PLL at 30 times the crystal, and then bypassed:
    ///
    /// ```
    #[doc = include_str!("plain_image.txt")]
    /// let crystal = Hertz::from_raw(33_333_333);
    /// image[2] = 30 << 12;
    /// assert_eq!(Clocks::new_from_regs(crystal, &image)?.io_pll_out().to_raw(), 999_999_990);
    /// image[2] |= 1 << 4;
    /// assert_eq!(Clocks::new_from_regs(crystal, &image)?.io_pll_out(), crystal);
    /// # Ok::<(), Refusal>(())
    /// ```
    #[inline]
    pub fn new_from_regs(ps_clk_freq: Hertz, image: &[u32]) -> Result<Self, Refusal> {
        let row = words(|out| raw::clocks(ps_clk_freq.to_raw(), image, out))?;
        Ok(Self {
            ps_clk: ps_clk_freq,
            row,
        })
    }

    /// The crystal's frequency.
    #[inline]
    pub const fn ps_clk(&self) -> Hertz {
        self.ps_clk
    }

    /// What the ARM PLL gives.
    #[inline]
    pub const fn arm_pll_out(&self) -> Hertz {
        Hertz::from_raw(self.row[ARM_PLL])
    }

    /// What the IO PLL gives.
    #[inline]
    pub const fn io_pll_out(&self) -> Hertz {
        Hertz::from_raw(self.row[IO_PLL])
    }

    /// What the DDR PLL gives.
    #[inline]
    pub const fn ddr_pll_out(&self) -> Hertz {
        Hertz::from_raw(self.row[DDR_PLL])
    }

    /// The CPU's.
    #[inline]
    pub fn arm_clocks(&self) -> ArmClocks {
        ArmClocks::of(&self.row)
    }

    /// The DDR memory's.
    #[inline]
    pub fn ddr_clocks(&self) -> DdrClocks {
        DdrClocks::of(&self.row)
    }

    /// The peripherals'.
    #[inline]
    pub fn io_clocks(&self) -> IoClocks {
        IoClocks::of(&self.row)
    }

    /// The peripherals', to be updated after one's clock was set anew.
    #[inline]
    pub fn io_clocks_mut(&mut self) -> IoClocksMut<'_> {
        IoClocksMut::of(&mut self.row)
    }

    /// Those of the programmable logic.
    #[inline]
    pub fn pl_clocks(&self) -> [Hertz; 4] {
        row::clocks(&self.row, FPGA)
    }

    #[inline]
    pub(crate) const fn row(&self) -> &Row {
        &self.row
    }
}
