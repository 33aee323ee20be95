//! The clock module that a refusal names.

/// Clock module; its number is what a refusal carries. Evaluation checks in another order.
#[derive(Clone, Copy, Debug, PartialEq, Eq, Hash)]
pub enum ClockModuleId {
    Pll,
    Ddr,
    Arm,
    Smc,
    Qspi,
    Sdio,
    Uart,
    Spi,
    Pcap,
    Can,
    Fpga,
    Trace,
    Gem0,
    Gem1,
}

/// The modules by their numbers.
const ALL: [ClockModuleId; 14] = [
    ClockModuleId::Pll,
    ClockModuleId::Ddr,
    ClockModuleId::Arm,
    ClockModuleId::Smc,
    ClockModuleId::Qspi,
    ClockModuleId::Sdio,
    ClockModuleId::Uart,
    ClockModuleId::Spi,
    ClockModuleId::Pcap,
    ClockModuleId::Can,
    ClockModuleId::Fpga,
    ClockModuleId::Trace,
    ClockModuleId::Gem0,
    ClockModuleId::Gem1,
];

impl ClockModuleId {
    /// The module of a number.
    pub(crate) fn of(number: u32) -> Option<Self> {
        ALL.get(number as usize).copied()
    }
}
