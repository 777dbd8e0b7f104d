//! Runs the program that salvages rolls on torn rolls, and compares what it prints and leaves with the plain implementation.

use milecopper_host::model::record::record_at;
use milecopper_host::model::salvage::{printed, salvage};
use milecopper_host::tool::{is_asked, misused};
use std::io::Write;
use std::path::{Path, PathBuf};
use std::process::{Command, ExitCode, Stdio};
use std::{env, fs, process};

const USAGE: &str = "usage: try_salvager ROLL PROGRAM...

Runs PROGRAM, which salvages rolls, on ROLL, whole, cut at every byte, with bits flipped, and with its records spliced and
doubled. What it prints, and the kept.bin that it leaves, have to be those of the plain implementation of the rules.";

fn main() -> ExitCode {
    if is_asked(USAGE) {
        return ExitCode::SUCCESS;
    }
    let words: Vec<String> = env::args().skip(1).collect();
    if words.len() < 2 || words[0].starts_with('-') {
        return misused("try_salvager", "a roll and a program are due", USAGE);
    }
    match run(&words[0], &words[1..]) {
        Ok(cases) => {
            println!("{cases}");
            ExitCode::SUCCESS
        }
        Err(told) => {
            eprintln!("try_salvager: {told}");
            ExitCode::FAILURE
        }
    }
}

fn run(roll: &str, program: &[String]) -> Result<usize, String> {
    let whole = fs::read(roll).map_err(|error| format!("{roll}: {error}"))?;
    let folder = env::temp_dir().join(format!("try_salvager-{}", process::id()));
    fs::create_dir(&folder).map_err(|error| format!("{}: {error}", folder.display()))?;
    let rolls = torn(&whole);
    let tried = rolls
        .iter()
        .try_for_each(|(name, roll)| try_roll(program, &folder, roll).map_err(|why| format!("{name}: {why}")));
    fs::remove_dir_all(&folder).map_err(|error| format!("{}: {error}", folder.display()))?;
    tried.map(|()| rolls.len())
}

/// Runs the program on a roll, and on what is kept of it.
fn try_roll(program: &[String], folder: &Path, roll: &[u8]) -> Result<(), String> {
    let found = salvage(roll);
    let lines = run_on(program, folder, roll)?;
    if lines != printed(&found) {
        return Err(format!("it prints {lines:?}, not {:?}", printed(&found)));
    }
    let file = folder.join("kept.bin");
    match found {
        None if file.exists() => Err("there is a kept.bin".to_string()),
        None => Ok(()),
        Some(salvaged) => {
            let kept = fs::read(&file).map_err(|error| format!("kept.bin: {error}"))?;
            if kept != salvaged.kept {
                return Err("kept.bin has other bytes".to_string());
            }
            let dropped: usize = salvaged.dropped.iter().map(|(_, length)| length).sum();
            (kept.len() + dropped == roll.len()).then_some(()).ok_or("the lengths do not add up".to_string())
        }
    }
}

/// What the program prints of a roll. It may end before it has read all of it.
fn run_on(program: &[String], folder: &Path, roll: &[u8]) -> Result<String, String> {
    let error = |error: std::io::Error| format!("{}: {error}", program[0]);
    let mut child = Command::new(PathBuf::from(&program[0]))
        .args(&program[1..])
        .current_dir(folder)
        .stdin(Stdio::piped())
        .stdout(Stdio::piped())
        .stderr(Stdio::piped())
        .spawn()
        .map_err(error)?;
    let _ = child.stdin.take().expect("it is piped").write_all(roll);
    let output = child.wait_with_output().map_err(error)?;
    if !output.status.success() || !output.stderr.is_empty() {
        return Err(format!("{}, and on standard error: {}", output.status, String::from_utf8_lossy(&output.stderr)));
    }
    String::from_utf8(output.stdout).map_err(|_| "it prints no text".to_string())
}

/// The roll, and torn ones that are made of it, each with a name.
fn torn(whole: &[u8]) -> Vec<(String, Vec<u8>)> {
    let mut rolls = vec![("the roll".to_string(), whole.to_vec())];
    let mut add = |name: String, roll: Vec<u8>| rolls.push((name, roll));
    for place in 0..whole.len() {
        add(format!("cut before byte {place}"), whole[place..].to_vec());
        add(format!("cut behind byte {place}"), whole[..=place].to_vec());
        add(format!("without byte {place}"), [&whole[..place], &whole[place + 1..]].concat());
        let mut flipped = whole.to_vec();
        flipped[place] ^= 1 << (place % 8);
        add(format!("a bit of byte {place} flipped"), flipped);
    }
    let records = records_of(whole);
    for (i, record) in records.iter().enumerate() {
        add(format!("record {i} doubled"), [record, record, &whole[..]].concat());
        for (j, other) in records.iter().enumerate() {
            let middle = record.len() / 2 + j % 3;
            add(format!("record {j} in record {i}"), [&record[..middle], other, &record[middle..]].concat());
            add(
                format!("record {i} spliced with record {j}"),
                [&record[..middle], &other[other.len() / 2..], &whole[..]].concat(),
            );
            let foreign = [&[other.len() as u8 + 2, 0, 9, 0][..], other].concat();
            add(format!("record {j} in one of another kind behind record {i}"), [record, &foreign[..]].concat());
        }
    }
    rolls
}

fn records_of(roll: &[u8]) -> Vec<&[u8]> {
    let mut records = Vec::new();
    let mut place = 0;
    while let Some(record) = record_at(roll, place) {
        records.push(&roll[place..place + record.size()]);
        place += record.size();
    }
    records
}
