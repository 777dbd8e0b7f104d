//! Makes bytes from a readable text, or checks that a file holds the bytes of its text. docs/TEXT.md is the text's page.

use milecopper_host::maker::cases::{cases_of, rolls_of};
use milecopper_host::maker::compare::difference;
use milecopper_host::maker::encoding::text_of;
use milecopper_host::maker::{checked_bytes_of, raw_bytes_of, Fault};
use milecopper_host::model::read_file;
use milecopper_host::tool::{is_asked, misused};
use std::cell::RefCell;
use std::os::unix::fs::MetadataExt;
use std::path::{Path, PathBuf};
use std::process::{self, ExitCode};
use std::{env, fs};

const USAGE: &str = "usage: make_bytes [--check] [--raw] IN.txt OUT.bin
       make_bytes [--check] --cases CASES.txt STDIN STDOUT
       make_bytes --rolls CASES.txt FOLDER

Makes the bytes of a readable text of a tariff or of trips; docs/TEXT.md says what it may have. Mistakes are told with their lines, and
then OUT.bin is not there. With --check nothing is written: the bytes are compared with those that the file holds.

--raw     wrong values are written as they stand, and 'record' and 'bytes' any bytes at all
--cases   input and output of the program 'vectors', from a file of cases, which is raw
--rolls   the rolls of a file of cases, each with its tariff";

/// What the arguments ask for.
#[derive(Default)]
struct Task {
    check: bool,
    raw: bool,
    cases: bool,
    rolls: bool,
    files: Vec<String>,
}

fn main() -> ExitCode {
    if is_asked(USAGE) {
        return ExitCode::SUCCESS;
    }
    let task = match task_of(env::args().skip(1)) {
        Ok(task) => task,
        Err(fault) => return misused("make_bytes", &fault, USAGE),
    };
    match run(&task) {
        Ok(()) => ExitCode::SUCCESS,
        Err(lines) => {
            eprintln!("{}", lines.join("\n"));
            ExitCode::FAILURE
        }
    }
}

fn task_of(arguments: impl Iterator<Item = String>) -> Result<Task, String> {
    let (switches, files): (Vec<String>, Vec<String>) = arguments.partition(|argument| argument.starts_with("--"));
    let mut task = Task { files, ..Task::default() };
    for switch in switches {
        match switch.as_str() {
            "--check" => task.check = true,
            "--raw" => task.raw = true,
            "--cases" => task.cases = true,
            "--rolls" => task.rolls = true,
            _ => return Err(format!("'{switch}' is unknown")),
        }
    }
    let due = if task.cases { 3 } else { 2 };
    if task.files.len() != due {
        Err(format!("{due} names are due, and not {}", task.files.len()))
    } else if task.rolls && (task.cases || task.check) {
        Err("--rolls goes with no other switch".to_string())
    } else {
        Ok(task)
    }
}

/// An error is what to say, line by line.
fn run(task: &Task) -> Result<(), Vec<String>> {
    let source = &task.files[0];
    let sources = RefCell::new(vec![PathBuf::from(source)]);
    let outputs: &[String] = if task.rolls { &[] } else { &task.files[1..] };
    if !task.check {
        apart(outputs, &sources.borrow())?;
    }
    let made = match made_from(task, &sources) {
        Ok(made) => made,
        Err(mut lines) => {
            if !task.check && apart(outputs, &sources.borrow()).is_ok() {
                lines.extend(outputs.iter().filter_map(|output| without_stale(output)));
            }
            return Err(lines);
        }
    };
    if task.check {
        return made.iter().try_for_each(|(file, bytes)| check(source, file, bytes)).map_err(|text| vec![text]);
    }
    let names: Vec<String> = made.iter().map(|(file, _)| file.clone()).collect();
    apart(&names, &sources.borrow())?;
    write_all(&made).map_err(|text| vec![text])
}

/// No output is one of the sources or another output, by whatever name.
fn apart(outputs: &[String], sources: &[PathBuf]) -> Result<(), Vec<String>> {
    let same = |one: &Path, other: &Path| match (fs::metadata(one), fs::metadata(other)) {
        (Ok(one), Ok(other)) => (one.dev(), one.ino()) == (other.dev(), other.ino()),
        _ => one == other,
    };
    for (i, output) in outputs.iter().enumerate() {
        if sources.iter().any(|source| same(Path::new(output), source)) {
            return Err(vec![format!("{output} is a text that is read here: nothing was written")]);
        }
        if outputs[..i].iter().any(|other| same(Path::new(output), Path::new(other))) {
            return Err(vec![format!("{output} is named twice: nothing was written")]);
        }
    }
    Ok(())
}

/// What an earlier run made is not what the text gives now.
fn without_stale(output: &str) -> Option<String> {
    let is_file = fs::metadata(output).is_ok_and(|found| found.is_file());
    (is_file && fs::remove_file(output).is_ok()).then(|| format!("{output}, which was there before, was removed"))
}

/// The files to make, with their contents. Rolls are numbered from 1: the tariff of each, and the roll.
fn made_from(task: &Task, sources: &RefCell<Vec<PathBuf>>) -> Result<Vec<(String, Vec<u8>)>, Vec<String>> {
    let (source, files) = (&task.files[0], &task.files[1..]);
    let told = |faults: Vec<Fault>| faults.iter().map(|fault| format!("{source}: {fault}")).collect::<Vec<String>>();
    let bytes = fs::read(source).map_err(|error| vec![format!("{source}: {error}")])?;
    let text = text_of(&bytes).map_err(told)?;
    let one = |fault: Fault| told(vec![fault]);
    if task.rolls {
        let numbered = (1..).zip(rolls_of(&text).map_err(one)?);
        let named = |number, what| format!("{}/{number}.{what}", files[0]);
        Ok(numbered.flat_map(|(i, (tariff, roll))| [(named(i, "tariff"), tariff), (named(i, "roll"), roll)]).collect())
    } else if task.cases {
        let cases = cases_of(&text).map_err(one)?;
        Ok(files.iter().cloned().zip([cases.input, cases.output]).collect())
    } else if task.raw {
        Ok(vec![(files[0].clone(), raw_bytes_of(&text).map_err(told)?)])
    } else {
        let stops_of = |name: &str| {
            let path = Path::new(source).parent().unwrap_or(Path::new("")).join(name);
            sources.borrow_mut().push(path.clone());
            stops_in(name, &path)
        };
        Ok(vec![(files[0].clone(), checked_bytes_of(&text, &stops_of).map_err(told)?)])
    }
}

/// The stops of the tariff in this file, which holds its text or its bytes, in the edition with the most of them.
fn stops_in(name: &str, path: &Path) -> Result<usize, String> {
    let found = fs::read(path).map_err(|error| format!("the tariff {name}: {error}"))?;
    let bytes = if path.extension().is_some_and(|ending| ending == "bin") {
        found
    } else {
        let no_tariff = |_: &str| Err("a tariff in a tariff".to_string());
        text_of(&found)
            .and_then(|text| checked_bytes_of(&text, &no_tariff))
            .map_err(|faults| format!("the tariff {name} has mistakes of its own, the first in {}", faults[0]))?
    };
    let file = read_file(&bytes).map_err(|_| format!("{name} is no tariff"))?;
    Ok(file.editions.iter().map(|edition| edition.tariff.stops.len()).max().unwrap_or(0))
}

/// Writes each file beside its place, and only when all are written puts them there. What is no file, as /dev/null, is
/// written as it is.
fn write_all(made: &[(String, Vec<u8>)]) -> Result<(), String> {
    let mut placed = Vec::new();
    let mut written = Ok(());
    for (file, bytes) in made {
        let place = fs::canonicalize(file).unwrap_or(PathBuf::from(file));
        let is_other = fs::metadata(&place).is_ok_and(|found| !found.is_file());
        let beside =
            if is_other { place.clone() } else { PathBuf::from(format!("{}.new-{}", place.display(), process::id())) };
        written = written.and_then(|()| fs::write(&beside, bytes).map_err(|error| format!("{file}: {error}")));
        if !is_other {
            placed.push((file, beside, place));
        }
    }
    for (file, beside, place) in &placed {
        written = written.and_then(|()| fs::rename(beside, place).map_err(|error| format!("{file}: {error}")));
    }
    for (_, beside, _) in placed {
        let _ = fs::remove_file(beside);
    }
    written
}

fn check(source: &str, file: &str, made: &[u8]) -> Result<(), String> {
    let found = fs::read(file).map_err(|error| format!("{file}: {error}"))?;
    match difference(made, &found) {
        None => Ok(()),
        Some(text) => Err(format!("{file} is not what {source} gives: {text}")),
    }
}
