//! The program that settles a roll, by the tuned implementation: the tariff from `tariff.bin`, the roll from standard
//! input, a line a part on standard output.

use milecopper_host::tool::is_asked;
use milecopper_speed::tuned::settle_roll;
use std::fs::File;
use std::io::{self, ErrorKind, Read};
use std::os::fd::AsFd;
use std::process::ExitCode;

/// No tariff is decided by more than its first so many bytes: the longest tariff, and the longest record behind it.
const TARIFF_BYTES: u64 = 29_062 + 1_026;

const USAGE: &str = "usage: tuned_roll <ROLL

Settles the roll under tariff.bin, by the implementation tuned for speed, and prints a line a part.";

fn main() -> ExitCode {
    if is_asked(USAGE) {
        return ExitCode::SUCCESS;
    }
    let tariff = match read_tariff() {
        Ok(tariff) => tariff,
        Err(error) => return told("tariff.bin", &error),
    };
    match settle(&tariff) {
        Ok(()) => ExitCode::SUCCESS,
        Err(error) => told("the roll", &error),
    }
}

/// A missing file counts as empty.
fn read_tariff() -> io::Result<Vec<u8>> {
    let mut tariff = Vec::new();
    match File::open("tariff.bin") {
        Err(error) if error.kind() == ErrorKind::NotFound => (),
        file => drop(file?.take(TARIFF_BYTES).read_to_end(&mut tariff)?),
    }
    Ok(tariff)
}

/// Standard input and output are used as files, since settling has its own buffers.
fn settle(tariff: &[u8]) -> io::Result<()> {
    let roll = File::from(io::stdin().as_fd().try_clone_to_owned()?);
    let out = File::from(io::stdout().as_fd().try_clone_to_owned()?);
    settle_roll(tariff, roll, out)
}

fn told(what: &str, error: &io::Error) -> ExitCode {
    eprintln!("tuned_roll: {what}: {error}");
    ExitCode::FAILURE
}
