//! The driver's command line. It ends with 0 where all went well or something is not at hand, with 1 on a
//! difference, with 2 where it was called wrongly.
use std::process::ExitCode;

#[cfg(original)]
mod args;
#[cfg(original)]
mod modes;

#[cfg(original)]
fn main() -> ExitCode {
    let mut words = std::env::args().skip(1);
    let mode = words.next().unwrap_or_default();
    let done = args::Args::read(words).and_then(|args| modes::run(&mode, args));
    done.map_or_else(
        |why| {
            eprintln!("{why}\n{}", args::USAGE);
            ExitCode::from(2)
        },
        |well| {
            if well {
                ExitCode::SUCCESS
            } else {
                ExitCode::FAILURE
            }
        },
    )
}

#[cfg(not(original))]
fn main() -> ExitCode {
    println!(
        "The original's source was not at hand when this was built: nothing is compared, listed or timed.\n\
         Name its folder in OGRUSPINU_RUST_SOURCE and build again."
    );
    ExitCode::SUCCESS
}
