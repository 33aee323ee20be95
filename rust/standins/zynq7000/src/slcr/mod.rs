//! The SLCR and the clock registers in it: which word of the image each register is.
pub mod clocks;

use clocks::*;
use core::marker::PhantomData;
use core::ptr::without_provenance_mut;

/// What the boot mode pins say of the PLLs.
#[derive(Debug, Clone, Copy, PartialEq, Eq)]
pub enum BootPllConfig {
    Enabled,
    Bypassed,
}

/// The whole SLCR block.
pub struct Registers;

impl Registers {
    /// # Safety
    ///
    /// As of [`ClockControlRegisters::new_mmio_fixed`].
    pub unsafe fn new_mmio_fixed() -> MmioRegisters<'static> {
        MmioRegisters(PhantomData)
    }
}

/// Access to the SLCR. Its lock stays behind with the hardware, so both keys are dropped.
pub struct MmioRegisters<'a>(PhantomData<&'a ()>);

impl MmioRegisters<'_> {
    pub fn write_unlock(&mut self, _key: u32) {}

    pub fn write_lock(&mut self, _key: u32) {}

    pub fn clk_ctrl(&mut self) -> MmioClockControlRegisters {
        // SAFETY: the value is used up inside the call that the device was set up for.
        unsafe { ClockControlRegisters::new_mmio_fixed() }
    }
}

/// The clock registers, SLCR offsets 0x100 to 0x1C4.
pub struct ClockControlRegisters;

impl ClockControlRegisters {
    /// # Safety
    ///
    /// The value must not outlive the run for which the thread's device was set up.
    #[inline]
    pub unsafe fn new_mmio_fixed() -> MmioClockControlRegisters {
        // SAFETY: the caller keeps to what is asked above.
        MmioClockControlRegisters(unsafe { device::Registers::at_hand() })
    }
}

/// Access to the clock registers.
pub struct MmioClockControlRegisters(device::Registers);

/// Access to one FPGA clock's registers, the first of which is its control word.
pub struct MmioFpgaClock(device::Registers, usize);

impl MmioFpgaClock {
    #[inline]
    pub fn read_ctrl(&self) -> FpgaClockControl {
        self.0.read(self.1)
    }
}

macro_rules! access {
    (read { $($read:ident: $type:ty = $word:literal),* $(,)? }
     write { $($write:ident: $wtype:ty = $wword:literal),* $(,)? }
     pointer { $($pointer:ident: $ptype:ty = $pword:literal),* $(,)? }
     fpga { $($fpga:ident = $fword:literal),* $(,)? }) => {
        impl MmioClockControlRegisters {
            $(
                #[inline]
                pub fn $read(&self) -> $type {
                    self.0.read($word)
                }
            )*
            $(
                #[inline]
                pub fn $write(&mut self, value: $wtype) {
                    self.0.write($wword, value);
                }
            )*
            $(
                /// The register's address in the manual; it is never followed.
                pub fn $pointer(&mut self) -> *mut $ptype {
                    without_provenance_mut(device::BASE + 4 * $pword)
                }
            )*
            $(
                #[inline]
                pub fn $fpga(&mut self) -> MmioFpgaClock {
                    MmioFpgaClock(self.0, $fword)
                }
            )*
        }
    };
}

access! {
    read {
        read_arm_pll_ctrl: PllControl = 0,
        read_ddr_pll_ctrl: PllControl = 1,
        read_io_pll_ctrl: PllControl = 2,
        read_pll_status: PllStatus = 3,
        read_arm_clk_ctrl: ArmClockControl = 8,
        read_ddr_clk_ctrl: DdrClockControl = 9,
        read_gem_0_clk_ctrl: GigEthClockControl = 16,
        read_gem_1_clk_ctrl: GigEthClockControl = 17,
        read_smc_clk_ctrl: SingleCommonPeriphIoClockControl = 18,
        read_lqspi_clk_ctrl: SingleCommonPeriphIoClockControl = 19,
        read_sdio_clk_ctrl: DualCommonPeriphIoClockControl = 20,
        read_uart_clk_ctrl: DualCommonPeriphIoClockControl = 21,
        read_spi_clk_ctrl: DualCommonPeriphIoClockControl = 22,
        read_can_clk_ctrl: CanClockControl = 23,
        read_dbg_clk_ctrl: TraceClockControl = 25,
        read_pcap_clk_ctrl: SingleCommonPeriphIoClockControl = 26,
        read_clk_ratio_select: ClockRatioSelectReg = 49,
    }
    write {
        write_arm_clk_ctrl: ArmClockControl = 8,
        write_ddr_clk_ctrl: DdrClockControl = 9,
        write_clk_ratio_select: ClockRatioSelectReg = 49,
    }
    pointer {
        pointer_to_arm_pll_ctrl: PllControl = 0,
        pointer_to_ddr_pll_ctrl: PllControl = 1,
        pointer_to_io_pll_ctrl: PllControl = 2,
        pointer_to_arm_pll_cfg: PllConfig = 4,
        pointer_to_ddr_pll_cfg: PllConfig = 5,
        pointer_to_io_pll_cfg: PllConfig = 6,
    }
    fpga {
        fpga_0_clk_ctrl = 28,
        fpga_1_clk_ctrl = 32,
        fpga_2_clk_ctrl = 36,
        fpga_3_clk_ctrl = 40,
    }
}

impl MmioClockControlRegisters {
    pub fn modify_ddr_clk_ctrl(&mut self, f: impl FnOnce(DdrClockControl) -> DdrClockControl) {
        let before = self.read_ddr_clk_ctrl();
        self.write_ddr_clk_ctrl(f(before));
    }
}
