//! Stand-in for the register crate `zynq7000`: the SLCR's clock registers, with document 01's positions,
//! over the thread's device.
mod field;
pub mod slcr;
