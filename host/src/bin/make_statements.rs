//! Statements for the program that prints them, each beside what it has to print by the plain implementation of the rules.

use milecopper_host::differential::random::Random;
use milecopper_host::differential::statements::{some_statement, Draft};
use milecopper_host::library::settle_to_number;
use milecopper_host::model::book::BOOK_BYTES;
use milecopper_host::model::record::record_at;
use milecopper_host::model::statement::LARGEST_STATEMENT;
use milecopper_host::model::table::print_statement;
use milecopper_host::tool::{is_asked, misused};
use std::path::Path;
use std::process::ExitCode;
use std::{env, fs, io};

const USAGE: &str = "usage: make_statements TARIFF ROLL FOLDER

Writes statements to FOLDER, each NAME.bin beside NAME.csv, which is what print_statement has to print of it: as
roll.bin the charge records that the library writes when it settles the roll, as century.bin one of each day of the
century, and others, in range and damaged, the same in every run.";

/// Statements besides the roll's.
const OTHERS: u64 = 48;

fn main() -> ExitCode {
    if is_asked(USAGE) {
        return ExitCode::SUCCESS;
    }
    let names: Vec<String> = env::args().skip(1).collect();
    let [tariff, roll, folder] = names.as_slice() else {
        return misused("make_statements", "a tariff, a roll and a folder are due", USAGE);
    };
    match make_all(tariff, roll, Path::new(folder)) {
        Ok(()) => ExitCode::SUCCESS,
        Err(told) => {
            eprintln!("make_statements: {told}");
            ExitCode::FAILURE
        }
    }
}

fn make_all(tariff: &str, roll: &str, folder: &Path) -> Result<(), String> {
    let read = |name: &str| fs::read(name).map_err(|error| format!("{name}: {error}"));
    write(folder, "roll", &settled(&read(tariff)?, &read(roll)?))?;
    write(folder, "century", &century())?;
    for number in 1..=OTHERS {
        write(folder, &number.to_string(), &some_statement(&mut Random::of(number, 0)))?;
    }
    Ok(())
}

/// A record of kind 4 for each day of 2000 to 2099, each at another minute of its day.
fn century() -> Vec<u8> {
    let openings = (0..36_525).map(|day| 1_440 * day + 7 * day % 1_440);
    openings.flat_map(|opening| Draft::alone([opening, 31, 0, 0], vec![opening % 3_790_000]).bytes()).collect()
}

/// The charge records of a roll, one after another, as the library writes them from a fresh book on.
fn settled(tariff: &[u8], roll: &[u8]) -> Vec<u8> {
    let (mut book, mut all, mut place) = ([0; BOOK_BYTES], Vec::new(), 0);
    while let Some(record) = roll.get(place..).and_then(|rest| record_at(rest, 0)) {
        let next = place + record.size();
        let mut statement = [0; LARGEST_STATEMENT];
        let answer = settle_to_number(tariff, &mut book, &roll[place..next], &mut statement);
        if answer >> 32 == 0 {
            all.extend(&statement[..answer as usize]);
        }
        place = next;
    }
    all
}

fn write(folder: &Path, name: &str, statement: &[u8]) -> Result<(), String> {
    let text = print_statement(statement);
    let written =
        |what: &str, bytes: &[u8]| -> io::Result<()> { fs::write(folder.join(format!("{name}.{what}")), bytes) };
    written("bin", statement).and_then(|()| written("csv", text.as_bytes())).map_err(|error| format!("{name}: {error}"))
}
