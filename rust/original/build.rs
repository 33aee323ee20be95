//! Brings the original's files, unchanged, from where they lie into the build's own folder, and cuts the one
//! function of the timer's file out by its signature. Without them the crate is empty and says why.
use std::env;
use std::fs;
use std::path::{Path, PathBuf};

/// The original's files, each with the module that it becomes.
const MODULES: [(&str, &str); 6] = [
    ("firmware/zynq7000-hal/src/time.rs", "time"),
    ("firmware/zynq7000-hal/src/slcr.rs", "slcr"),
    ("firmware/zynq7000-hal/src/clocks/mod.rs", "clocks"),
    ("host/z7-clock-calc/src/fpga.rs", "fpga"),
    ("host/z7-clock-calc/src/i2c.rs", "i2c"),
    ("host/z7-clock-calc/src/uart.rs", "uart"),
];
/// Found by the compiler beside `clocks/mod.rs`.
const PLL: &str = "firmware/zynq7000-hal/src/clocks/pll.rs";
/// Declared in `clocks/mod.rs` but not in the text given: an empty module takes its place.
const NOT_GIVEN: &str = "firmware/zynq7000-hal/src/clocks/fpga.rs";
const TTC: &str = "firmware/zynq7000-hal/src/ttc.rs";
const TTC_SIGNATURE: &str = "pub fn calc_prescaler_reg_and_interval_ticks(";

fn main() {
    println!("cargo::rustc-check-cfg=cfg(original)");
    println!("cargo::rerun-if-env-changed=OGRUSPINU_RUST_SOURCE");
    println!("cargo::rerun-if-changed=build.rs");
    let source = source_folder();
    println!("cargo::rerun-if-changed={}", source.display());
    let out = PathBuf::from(env::var_os("OUT_DIR").expect("cargo names OUT_DIR"));
    match bring(&source, &out) {
        Ok(()) => {
            println!("cargo::rustc-cfg=original");
            println!("cargo::metadata=at_hand=1");
        }
        Err(what) => println!(
            "cargo::warning=the original's source is not at hand ({what}); name its folder in \
             OGRUSPINU_RUST_SOURCE. What needs it is left out."
        ),
    }
}

/// The folder that the environment names, else the one that lies beside the repository.
fn source_folder() -> PathBuf {
    let here = PathBuf::from(env::var_os("CARGO_MANIFEST_DIR").expect("cargo names its folder"));
    env::var_os("OGRUSPINU_RUST_SOURCE")
        .map_or_else(|| here.join("../../../shared/docs/src"), PathBuf::from)
}

fn bring(source: &Path, out: &Path) -> Result<(), String> {
    let mut modules = String::new();
    for (file, name) in MODULES {
        write(out, file, &read(source, file)?)?;
        let path = out.join(file);
        modules +=
            &format!("#[allow(warnings, clippy::all)]\n#[path = {path:?}]\npub mod {name};\n");
    }
    write(out, PLL, &read(source, PLL)?)?;
    write(out, NOT_GIVEN, "")?;
    write(out, "ttc_function.rs", &cut(&read(source, TTC)?)?)?;
    write(out, "modules.rs", &modules)
}

/// From the signature to the closing brace at the line's start.
fn cut(text: &str) -> Result<String, String> {
    let start = text.find(TTC_SIGNATURE);
    let start = start.ok_or_else(|| format!("no `{TTC_SIGNATURE}` in {TTC}"))?;
    let end = text[start..].find("\n}\n");
    let end = end.ok_or_else(|| format!("no end of the function in {TTC}"))?;
    Ok(text[start..start + end + 3].to_owned())
}

fn read(source: &Path, file: &str) -> Result<String, String> {
    let path = source.join(file);
    fs::read_to_string(&path).map_err(|why| format!("{}: {why}", path.display()))
}

fn write(out: &Path, file: &str, text: &str) -> Result<(), String> {
    let path = out.join(file);
    let folder = path.parent().expect("a file in OUT_DIR has a folder");
    fs::create_dir_all(folder)
        .and_then(|()| fs::write(&path, text))
        .map_err(|why| format!("{}: {why}", path.display()))
}
