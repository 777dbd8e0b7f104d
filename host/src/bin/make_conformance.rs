//! Writes the conformance suite's cases and tariffs.

use milecopper_host::conformance::case::hex;
use milecopper_host::conformance::{make, Suite};
use milecopper_host::tool::{is_asked, misused};
use std::env;
use std::fmt::Write;
use std::fs;
use std::path::Path;
use std::process::ExitCode;

const USAGE: &str = "usage: make_conformance FOLDER

Writes cases.jsonl and tariffs.jsonl, the conformance suite, into the folder, and prints how many cases show what. The cases are made by the
makers of the differential test and from the examples of samples/; library and plain implementation agree in each of them. The same
sources give the same files.";

fn main() -> ExitCode {
    if is_asked(USAGE) {
        return ExitCode::SUCCESS;
    }
    let arguments: Vec<String> = env::args().skip(1).collect();
    let [folder] = arguments.as_slice() else {
        return misused("make_conformance", "a folder is due", USAGE);
    };
    if folder.starts_with('-') {
        return misused("make_conformance", &format!("'{folder}' is unknown"), USAGE);
    }
    match make().and_then(|suite| write(&suite, Path::new(folder))) {
        Ok(told) => {
            print!("{told}");
            ExitCode::SUCCESS
        }
        Err(told) => {
            eprintln!("make_conformance: {told}");
            ExitCode::FAILURE
        }
    }
}

/// Writes both files, and tells what the suite shows.
fn write(suite: &Suite, folder: &Path) -> Result<String, String> {
    let mut tariffs: Vec<&[u8]> = Vec::new();
    let mut cases = String::new();
    for (number, case) in (1..).zip(&suite.cases) {
        let name = case.slice("tariff").map(|tariff| {
            let known = tariffs.iter().position(|&own| own == tariff);
            let place = known.unwrap_or_else(|| {
                tariffs.push(tariff);
                tariffs.len() - 1
            });
            format!("tariff-{}", 1 + place)
        });
        cases += &case.json(number, name.as_deref());
        cases.push('\n');
    }
    let lines = (1..)
        .zip(&tariffs)
        .map(|(number, bytes)| format!("{{\"tariff\":\"tariff-{number}\",\"bytes\":\"{}\"}}\n", hex(bytes)));
    put(folder, "tariffs.jsonl", &lines.collect::<String>())?;
    put(folder, "cases.jsonl", &cases)?;
    let mut told = format!("{} cases under {} tariffs\n", suite.cases.len(), tariffs.len());
    for (thing, many) in &suite.shown {
        writeln!(told, "{many:5} {thing}").expect("into a text");
    }
    Ok(told)
}

fn put(folder: &Path, name: &str, text: &str) -> Result<(), String> {
    let file = folder.join(name);
    fs::write(&file, text).map_err(|error| format!("{}: {error}", file.display()))
}
