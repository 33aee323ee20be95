//! The CPU's clocks.
use super::row::{CPU, Row, clocks};
use crate::time::Hertz;

/// Between the CPU's clocks 6x4x, 2x and 1x.
#[derive(Clone, Copy, Debug, PartialEq, Eq)]
pub enum CpuClockRatio {
    FourToTwoToOne,
    SixToTwoToOne,
}

/// What the cores and the buses around them run at.
#[derive(Clone, Copy, Debug, PartialEq, Eq)]
pub struct ArmClocks {
    ref_clk: Hertz,
    ratio: CpuClockRatio,
    cpu_1x_clk: Hertz,
    cpu_2x_clk: Hertz,
    cpu_3x2x_clk: Hertz,
    cpu_6x4x_clk: Hertz,
}

impl ArmClocks {
    #[inline]
    pub(super) fn of(row: &Row) -> Self {
        let ratio = match row[CPU + 1] {
            0 => CpuClockRatio::FourToTwoToOne,
            _ => CpuClockRatio::SixToTwoToOne,
        };
        let [reference] = clocks(row, CPU);
        Self::with(reference, ratio, clocks(row, CPU + 2).map(Hertz::to_raw))
    }

    /// 1x, 2x, 3x2x and 6x4x with the reference that they come from.
    #[inline]
    pub(crate) fn with(ref_clk: Hertz, ratio: CpuClockRatio, clocks: [u32; 4]) -> Self {
        let [cpu_1x_clk, cpu_2x_clk, cpu_3x2x_clk, cpu_6x4x_clk] = clocks.map(Hertz::from_raw);
        Self {
            ref_clk,
            ratio,
            cpu_1x_clk,
            cpu_2x_clk,
            cpu_3x2x_clk,
            cpu_6x4x_clk,
        }
    }

    /// How the four clocks relate.
    #[inline]
    pub const fn ratio(&self) -> CpuClockRatio {
        self.ratio
    }

    /// The ARM PLL's output, whatever the source field selects.
    #[inline]
    pub const fn ref_clk(&self) -> Hertz {
        self.ref_clk
    }

    /// 1x: that of the I2C controllers and other peripherals.
    #[inline]
    pub const fn cpu_1x_clk(&self) -> Hertz {
        self.cpu_1x_clk
    }

    /// 2x.
    #[inline]
    pub const fn cpu_2x_clk(&self) -> Hertz {
        self.cpu_2x_clk
    }

    /// 3x2x: that of the timers inside the CPU.
    #[inline]
    pub const fn cpu_3x2x_clk(&self) -> Hertz {
        self.cpu_3x2x_clk
    }

    /// 6x4x: that of the cores.
    #[inline]
    pub const fn cpu_6x4x_clk(&self) -> Hertz {
        self.cpu_6x4x_clk
    }
}
