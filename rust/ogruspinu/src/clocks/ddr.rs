//! The DDR memory's clocks.
use super::row::{DDR, Row, clocks};
use crate::time::Hertz;

/// What the memory and its controller run at.
#[derive(Clone, Copy, Debug, PartialEq, Eq)]
pub struct DdrClocks {
    ref_clk: Hertz,
    ddr_3x_clk: Hertz,
    ddr_2x_clk: Hertz,
}

impl DdrClocks {
    #[inline]
    pub(super) fn of(row: &Row) -> Self {
        let [ref_clk, ddr_3x_clk, ddr_2x_clk] = clocks(row, DDR);
        Self {
            ref_clk,
            ddr_3x_clk,
            ddr_2x_clk,
        }
    }

    /// 3x and 2x with the reference that they come from.
    #[inline]
    pub(crate) fn with(ref_clk: Hertz, clocks: [u32; 2]) -> Self {
        let [ddr_3x_clk, ddr_2x_clk] = clocks.map(Hertz::from_raw);
        Self {
            ref_clk,
            ddr_3x_clk,
            ddr_2x_clk,
        }
    }

    /// The DDR PLL's output.
    #[inline]
    pub const fn ref_clk(&self) -> Hertz {
        self.ref_clk
    }

    /// 3x: that of the memory itself.
    #[inline]
    pub const fn ddr_3x_clk(&self) -> Hertz {
        self.ddr_3x_clk
    }

    /// 2x: that of the way to it.
    #[inline]
    pub const fn ddr_2x_clk(&self) -> Hertz {
        self.ddr_2x_clk
    }
}
