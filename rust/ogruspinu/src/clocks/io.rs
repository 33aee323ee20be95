//! The IO peripherals' clocks and their updates.
use super::row::{IO, Row, TRACE, TRACE_EMIO, clocks};
use crate::raw;
use crate::refusal::told;
use crate::time::Hertz;

/// What the peripherals are clocked with, each from its own divider.
#[derive(Clone, Copy, Debug, PartialEq, Eq)]
pub struct IoClocks {
    ref_clk: Hertz,
    smc_clk: Hertz,
    qspi_clk: Hertz,
    sdio_clk: Hertz,
    uart_clk: Hertz,
    spi_clk: Hertz,
    can_clk: Hertz,
    pcap_2x_clk: Hertz,
    trace_clk: Option<Hertz>,
}

/// The same in a record, to be updated.
pub struct IoClocksMut<'a> {
    row: &'a mut Row,
}

impl<'a> IoClocksMut<'a> {
    pub(super) fn of(row: &'a mut Row) -> Self {
        Self { row }
    }

    fn update(&mut self, which: u32, clk: Hertz) {
        let done = told(raw::io_update(which, clk.to_raw(), self.row));
        done.expect("there is such a clock, and room");
    }
}

/// A getter for each clock that can be updated, and its update.
macro_rules! updated {
    ($($what:literal, $clk:ident, $update:ident = $which:literal;)*) => {
        impl IoClocks {$(
            #[doc = concat!($what, "'s.")]
            #[inline]
            pub const fn $clk(&self) -> Hertz {
                self.$clk
            }
        )*}

        impl IoClocksMut<'_> {$(
            #[doc = concat!("Puts another clock of ", $what, " into the record.")]
            ///
            /// ```
            #[doc = include_str!("plain_image.txt")]
            /// let mut clocks = Clocks::new_from_regs(Hertz::from_raw(1_000), &image)?;
            #[doc = concat!("clocks.io_clocks_mut().", stringify!($update), "(Hertz::from_raw(7));")]
            #[doc = concat!("assert_eq!(clocks.io_clocks().", stringify!($clk), "().to_raw(), 7);")]
            /// # Ok::<(), Refusal>(())
            /// ```
            #[inline]
            pub fn $update(&mut self, clk: Hertz) {
                self.update($which, clk);
            }
        )*}
    };
}

updated! {
    "SMC", smc_clk, update_smc_clk = 0;
    "QSPI", qspi_clk, update_qspi_clk = 1;
    "SDIO", sdio_clk, update_sdio_clk = 2;
    "UART", uart_clk, update_uart_clk = 3;
    "SPI", spi_clk, update_spi_clk = 4;
    "CAN", can_clk, update_can_clk = 5;
    "PCAP", pcap_2x_clk, update_pcap_2x_clk = 6;
}

impl IoClocks {
    #[inline]
    pub(super) fn of(row: &Row) -> Self {
        let [
            ref_clk,
            smc_clk,
            qspi_clk,
            sdio_clk,
            uart_clk,
            spi_clk,
            can_clk,
            pcap_2x_clk,
        ] = clocks(row, IO);
        Self {
            ref_clk,
            smc_clk,
            qspi_clk,
            sdio_clk,
            uart_clk,
            spi_clk,
            can_clk,
            pcap_2x_clk,
            trace_clk: (row[TRACE_EMIO] == 0).then(|| Hertz::from_raw(row[TRACE])),
        }
    }

    /// The IO PLL's output.
    #[inline]
    pub const fn ref_clk(&self) -> Hertz {
        self.ref_clk
    }

    /// Trace's clock, [`None`] where it is EMIO's.
    #[inline]
    pub const fn trace_clk(&self) -> Option<Hertz> {
        self.trace_clk
    }
}
