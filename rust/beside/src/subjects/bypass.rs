//! W-205, for the subjects of an image: a PLL whose force bit is set gives the crystal. Document 01 and the original know no
//! bypass; they are asked about the image in which such a PLL multiplies by 1.
use super::image::{FDIV, changed};
use crate::generate::{Numbers, grid};
use original::WORDS;

/// The bit of a PLL's control word that bypasses it.
pub const FORCE: u32 = 1 << 4;

pub fn bypassed(control: u32) -> bool {
    control & FORCE != 0
}

pub fn multiplier(control: u32) -> u32 {
    control >> 12 & 127
}

/// A request whose crystal stands at `crystal`, with the three control words behind it changed.
pub fn with_controls(n: &[u32], crystal: usize, change: impl Fn(u32) -> u32) -> Numbers {
    let mut numbers = n.to_vec();
    if n.len() == crystal + 1 + WORDS {
        for control in &mut numbers[crystal + 1..=crystal + 3] {
            *control = change(*control);
        }
    }
    numbers
}

/// What is asked in place of an image with a bypassed PLL. A multiplier of 0 is refused in the image as it is.
pub fn instead(n: &[u32], crystal: usize) -> Option<Numbers> {
    let controls = n.get(crystal + 1..=crystal + 3)?;
    let zero = controls.iter().any(|&control| multiplier(control) == 0);
    if zero || !controls.iter().any(|&control| bypassed(control)) {
        return None;
    }
    Some(with_controls(n, crystal, by_one))
}

/// FDIV 1 and the force bit 0, where it is 1.
fn by_one(control: u32) -> u32 {
    match bypassed(control) {
        true => control & !(127 << 12 | FORCE) | 1 << 12,
        false => control,
    }
}

/// An image with some PLLs bypassed: bit i of `which` is the PLL of word i.
fn with_bypassed(n: &[u32], which: u32) -> Numbers {
    let force = |n: Numbers, pll| changed(&n, (pll, 4, 1), which >> pll & 1);
    (0..3).fold(n.to_vec(), force)
}

/// Each FDIV of each PLL under every set of bypassed PLLs.
pub fn small(base: &[u32]) -> Vec<Numbers> {
    let image = |n: Numbers| {
        let fdiv = changed(base, FDIV[n[1] as usize], n[2]);
        with_bypassed(&fdiv, n[0])
    };
    let all = grid([0..=7, 0..=2, 0..=127]);
    all.into_iter().map(image).collect()
}

/// An image under every set of bypassed PLLs.
pub fn every_way(n: &[u32]) -> impl Iterator<Item = Numbers> {
    (0..8).map(move |which| with_bypassed(n, which))
}

#[cfg(test)]
mod tests {
    use super::*;
    use crate::rng::Rng;
    use crate::subjects::image;
    use std::collections::BTreeMap;

    /// Random images have no, one, two and three bypassed PLLs, and with each number the product of a PLL right below the
    /// limit of 32 bits, bypassed and not, and right above it.
    #[test]
    fn every_number_of_bypassed_plls_meets_the_limit() {
        let rng = Rng::new(1, 1);
        let mut met = BTreeMap::new();
        for _ in 0..200_000 {
            let n = image::random(&rng);
            let count = n[1..4].iter().filter(|&&c| bypassed(c)).count();
            for &control in &n[1..4] {
                let product = u64::from(n[0]) * u64::from(multiplier(control));
                let near = product.abs_diff(1 << 32) <= u64::from(2 * multiplier(control));
                if near {
                    let over = product > u64::from(u32::MAX);
                    *met.entry((count, bypassed(control), over)).or_insert(0) += 1;
                }
            }
        }
        for (count, bypassed) in [
            (0, false),
            (1, false),
            (1, true),
            (2, false),
            (2, true),
            (3, true),
        ] {
            for over in [false, true] {
                let often = met.get(&(count, bypassed, over)).copied().unwrap_or(0);
                assert!(
                    often > 100,
                    "{count} bypassed, {bypassed}, over {over}: {often}"
                );
            }
        }
    }
}
