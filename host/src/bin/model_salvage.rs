//! What the program that salvages rolls has to print for a roll, and to leave, by the plain implementation of the rules.

use milecopper_host::model::salvage::{printed, salvage};
use milecopper_host::tool::{is_asked, misused};
use std::process::ExitCode;
use std::{env, fs};

const USAGE: &str = "usage: model_salvage ROLL KEPT

Prints what salvage_roll has to print for this roll, and writes the file that it has to leave, where it leaves one, by the
plain implementation of the rules.";

fn main() -> ExitCode {
    if is_asked(USAGE) {
        return ExitCode::SUCCESS;
    }
    let names: Vec<String> = env::args().skip(1).collect();
    let [roll, kept] = names.as_slice() else {
        return misused("model_salvage", "a roll and a file are due", USAGE);
    };
    match run(roll, kept) {
        Ok(lines) => {
            print!("{lines}");
            ExitCode::SUCCESS
        }
        Err(told) => {
            eprintln!("model_salvage: {told}");
            ExitCode::FAILURE
        }
    }
}

fn run(roll: &str, kept: &str) -> Result<String, String> {
    let found = salvage(&fs::read(roll).map_err(|error| format!("{roll}: {error}"))?);
    if let Some(salvaged) = &found {
        fs::write(kept, &salvaged.kept).map_err(|error| format!("{kept}: {error}"))?;
    }
    Ok(printed(&found))
}
