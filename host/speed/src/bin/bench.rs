//! Measures the proved library beside two implementations in Rust. `host/benchmark` builds all that it needs.

use milecopper_host::tool::{is_asked, misused};
use milecopper_speed::bench::{run, USAGE};
use std::env;
use std::process::ExitCode;

fn main() -> ExitCode {
    if is_asked(USAGE) {
        return ExitCode::SUCCESS;
    }
    match run(env::args().skip(1)) {
        Ok(()) => ExitCode::SUCCESS,
        Err(text) if text == USAGE => misused("bench", "these words are unknown", USAGE),
        Err(text) => {
            eprintln!("{text}");
            ExitCode::FAILURE
        }
    }
}
