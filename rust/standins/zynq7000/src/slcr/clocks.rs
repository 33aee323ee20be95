//! The clock registers' words and source codes, at document 01's positions.
use crate::field::{codes, words};
use arbitrary_int::{u4, u6, u7, u10};

codes! {
    /// Source of the CPU clocks.
    SrcSelArm: 2 bits { ArmPll, ArmPllAlt, DdrPll, IoPll }

    /// Source of every other clock but trace.
    SrcSelIo: 2 bits { IoPll, IoPllAlt, ArmPll, DdrPll }

    /// Source of the trace clock.
    SrcSelTpiu: 3 bits {
        IoPll, IoPllAlt, ArmPll, DdrPll,
        EmioTraceClk, EmioTraceClkAlt0, EmioTraceClkAlt1, EmioTraceClkAlt2
    }

    /// Ratio of the CPU clocks.
    CpuClockRatio: 1 bits { FourToTwoToOne, SixToTwoToOne }
}

words! {
    PllControl {
        reset set_reset with_reset: bool = 0,
        pwrdwn set_pwrdwn with_pwrdwn: bool = 1,
        bypass_qual set_bypass_qual with_bypass_qual: bool = 3,
        bypass_force set_bypass_force with_bypass_force: bool = 4,
        fdiv set_fdiv with_fdiv: u7 = 12,
    }

    PllConfig {
        loop_resistor set_loop_resistor with_loop_resistor: u4 = 4,
        charge_pump set_charge_pump with_charge_pump: u4 = 8,
        lock_count set_lock_count with_lock_count: u10 = 12,
    }

    PllStatus {}

    /// The activity bits stand where the manual has them; the pure part does not look at them.
    ArmClockControl {
        srcsel set_srcsel with_srcsel: SrcSelArm = 4,
        divisor set_divisor with_divisor: u6 = 8,
        cpu_6or4x_clk_act set_cpu_6or4x_clk_act with_cpu_6or4x_clk_act: bool = 24,
        cpu_3or2x_clk_act set_cpu_3or2x_clk_act with_cpu_3or2x_clk_act: bool = 25,
        cpu_2x_clk_act set_cpu_2x_clk_act with_cpu_2x_clk_act: bool = 26,
        cpu_1x_clk_act set_cpu_1x_clk_act with_cpu_1x_clk_act: bool = 27,
        cpu_peri_clk_act set_cpu_peri_clk_act with_cpu_peri_clk_act: bool = 28,
    }

    DdrClockControl {
        div_3x_clk set_div_3x_clk with_div_3x_clk: u6 = 20,
        div_2x_clk set_div_2x_clk with_div_2x_clk: u6 = 26,
    }

    SingleCommonPeriphIoClockControl {
        srcsel set_srcsel with_srcsel: SrcSelIo = 4,
        divisor set_divisor with_divisor: u6 = 8,
    }

    TraceClockControl {
        srcsel set_srcsel with_srcsel: SrcSelTpiu = 4,
        divisor set_divisor with_divisor: u6 = 8,
    }

    FpgaClockControl {
        srcsel set_srcsel with_srcsel: SrcSelIo = 4,
        divisor_0 set_divisor_0 with_divisor_0: u6 = 8,
        divisor_1 set_divisor_1 with_divisor_1: u6 = 20,
    }

    ClockRatioSelectReg {
        sel set_sel with_sel: CpuClockRatio = 0,
    }
}

/// The same fields under other names; a dual clock differs in its activity bits, which nobody here looks at.
pub type DualCommonPeriphIoClockControl = SingleCommonPeriphIoClockControl;
pub type CanClockControl = FpgaClockControl;
pub type GigEthClockControl = FpgaClockControl;
