//! What the program has to print for a tariff and a roll, by the plain implementation of the rules.

use milecopper_host::model::roll::settle_roll;
use milecopper_host::tool::{is_asked, misused};
use std::io::{self, Write};
use std::process::ExitCode;
use std::{env, fs};

const USAGE: &str = "usage: model_roll TARIFF ROLL

Prints what settle_roll has to print for these files, by the plain implementation of the rules.";

fn main() -> ExitCode {
    if is_asked(USAGE) {
        return ExitCode::SUCCESS;
    }
    let names: Vec<String> = env::args().skip(1).collect();
    let [tariff, roll] = names.as_slice() else {
        return misused("model_roll", "a tariff and a roll are due", USAGE);
    };
    match run(tariff, roll) {
        Ok(()) => ExitCode::SUCCESS,
        Err(told) => {
            eprintln!("model_roll: {told}");
            ExitCode::FAILURE
        }
    }
}

fn run(tariff: &str, roll: &str) -> Result<(), String> {
    let read = |name: &str| fs::read(name).map_err(|error| format!("{name}: {error}"));
    let printed = settle_roll(&read(tariff)?, &read(roll)?);
    io::stdout().write_all(printed.as_bytes()).map_err(|error| format!("standard output: {error}"))
}
