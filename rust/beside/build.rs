//! Passes on what the crates below found: whether the original's source and our archive are at hand.
use std::env;

fn main() {
    println!("cargo::rerun-if-changed=build.rs");
    println!("cargo::rustc-check-cfg=cfg(original, archive)");
    let found = [
        ("DEP_ZYNQ7000_RS_ORIGINAL_AT_HAND", "original"),
        ("DEP_OGRUSPINU_ARCHIVE_AT_HAND", "archive"),
    ];
    for (told, cfg) in found {
        if env::var_os(told).is_some() {
            println!("cargo::rustc-cfg={cfg}");
        }
    }
}
