//! Has the static library made from the proved crates, or takes the one that lies there, and links it. Where there is
//! none the crate is empty, and a warning says what is missing. A crate that is not proved is an error.
use std::env;
use std::fs;
use std::path::{Path, PathBuf};
use std::process::Command;
use std::time::SystemTime;

/// The Rattle crate whose functions are exported, and its file under the repository's top.
const CRATE: &str = "archive";
const FILE: &str = "crates/archive/out/libarchive.a";
const SCRIPT: &str = "rust/archive";
/// What a crate is made from; its `out` is made.
const PARTS: [&str; 3] = ["src", "specs", "proofs"];

fn main() {
    println!("cargo::rustc-check-cfg=cfg(archive)");
    println!("cargo::rerun-if-changed=build.rs");
    let here = PathBuf::from(env::var_os("CARGO_MANIFEST_DIR").expect("cargo names its folder"));
    let top = here.join("../..");
    let file = top.join(FILE);
    let sources = sources(&top);
    sources.iter().for_each(|path| watch(path));
    watch(&top.join(SCRIPT));
    watch(&file);
    let youngest = sources.iter().filter_map(|path| changed(path)).max();
    if top.join("crates").join(CRATE).is_dir() && changed(&file) <= youngest {
        make(&top);
    }
    match file.canonicalize() {
        Ok(file) => link(&file),
        Err(_) => println!(
            "cargo::warning=there is no {FILE}: {SCRIPT} makes it, with the Rattle toolchain on PATH. What needs it is \
             left out."
        ),
    }
}

/// The list of crates, and what each is made from.
fn sources(top: &Path) -> Vec<PathBuf> {
    let crates = fs::read_dir(top.join("crates"))
        .into_iter()
        .flatten()
        .flatten();
    let parts = crates.flat_map(|entry| PARTS.map(|part| entry.path().join(part)));
    [top.join("crates.txt")]
        .into_iter()
        .chain(parts)
        .filter(|path| path.exists())
        .collect()
}

fn watch(path: &Path) {
    println!("cargo::rerun-if-changed={}", path.display());
}

/// When a file, or the youngest file of a folder, was last written; nothing for what is not there.
fn changed(path: &Path) -> Option<SystemTime> {
    let inside = fs::read_dir(path).into_iter().flatten().flatten();
    let youngest = inside.filter_map(|entry| changed(&entry.path())).max();
    let own = fs::metadata(path).and_then(|about| about.modified()).ok();
    youngest.max(own)
}

/// Proves and compiles the crate. Without `rt` an archive that lies there is taken as it is.
fn make(top: &Path) {
    if Command::new("rt").arg("version").output().is_err() {
        println!("cargo::warning=there is no `rt` on PATH: {FILE} is not made anew");
        return;
    }
    match Command::new(top.join(SCRIPT)).output() {
        Ok(done) if done.status.success() => {}
        Ok(done) => {
            let said = [done.stdout, done.stderr].concat();
            let said = String::from_utf8_lossy(&said);
            let last = said.lines().last().unwrap_or("it said nothing");
            println!("cargo::error={SCRIPT} failed: {last}");
        }
        Err(why) => println!("cargo::error={SCRIPT} cannot be run: {why}"),
    }
}

fn link(file: &Path) {
    let folder = file.parent().expect("a file has a folder");
    println!("cargo::rustc-link-search=native={}", folder.display());
    println!("cargo::rustc-link-lib=static={CRATE}");
    println!("cargo::rustc-cfg=archive");
    println!("cargo::metadata=at_hand=1");
}
