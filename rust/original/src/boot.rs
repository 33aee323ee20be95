//! Stand-in for the boot mode, of which the sequence asks one thing.
use zynq7000::slcr::BootPllConfig;

/// Whether the boot pins had the PLLs bypassed.
#[derive(Debug, Clone, Copy)]
pub struct BootMode {
    bypassed: bool,
}

impl BootMode {
    pub(crate) fn new(bypassed: bool) -> Self {
        Self { bypassed }
    }

    pub fn pll_config(&self) -> BootPllConfig {
        if self.bypassed {
            BootPllConfig::Bypassed
        } else {
            BootPllConfig::Enabled
        }
    }
}
