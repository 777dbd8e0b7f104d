//! What every program here says of itself: `--help` and `--version` at once, and status 2 where it is called wrongly.

use std::env;
use std::io::{self, Write};
use std::process::ExitCode;

/// The version's number stands in the header alone.
const HEADER: &str = include_str!("../../include/milecopper.h");

fn version() -> String {
    let part = |name: &str| {
        let start = format!("#define MILECOPPER_VERSION_{name} ");
        HEADER.lines().find_map(|line| line.strip_prefix(&start)).expect("the header has the number")
    };
    ["MAJOR", "MINOR", "PATCH"].map(part).join(".")
}

/// Where the first argument asks for help or for the version, prints it; then there is nothing else to do.
pub fn is_asked(usage: &str) -> bool {
    let text = match env::args().nth(1).as_deref() {
        Some("--help" | "-h") => usage.to_string(),
        Some("--version") => format!("milecopper {}", version()),
        _ => return false,
    };
    // Whoever reads only the first lines has what was asked for.
    let _ = writeln!(io::stdout(), "{text}");
    true
}

/// Tells what is wrong with the arguments, and how the program is called.
pub fn misused(name: &str, fault: &str, usage: &str) -> ExitCode {
    let usage = usage.split("\n\n").next().unwrap_or(usage);
    eprintln!("{name}: {fault}\n{usage}");
    ExitCode::from(2)
}
