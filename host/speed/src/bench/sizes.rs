//! The size of the archive and of the programs.

use super::programs::{package, Programs};
use super::tables::{with_commas, Table, NONE};
use std::path::{Path, PathBuf};
use std::process::Command;
use std::{env, fs};

pub fn report(programs: &Programs) -> Result<(), String> {
    println!("\n## Sizes in bytes\n");
    let mut table = Table::of(["file", "all", "code and constants"]);
    for file in [&archive()?].into_iter().chain(&programs.paths) {
        let name = file.file_name().unwrap_or_default().to_string_lossy().to_string();
        let all = fs::metadata(file).map_err(|error| format!("{}: {error}", file.display()))?.len();
        table.row([name, with_commas(all), text_of(file).map_or(NONE.to_string(), with_commas)]);
    }
    print!("{table}");
    Ok(())
}

/// The one archive of its directory. MILECOPPER_LIB_DIR is that, seen from this package's; ../../target/native/archive unless
/// set.
fn archive() -> Result<PathBuf, String> {
    let directory = package().join(env::var("MILECOPPER_LIB_DIR").unwrap_or("../../target/native/archive".to_string()));
    let files = fs::read_dir(&directory).map_err(|error| format!("{}: {error}", directory.display()))?;
    let mut archives =
        files.flatten().map(|file| file.path()).filter(|file| file.extension().is_some_and(|a| a == "a"));
    archives.next().ok_or(format!("no archive in {}", directory.display()))
}

/// What the tool `size` calls text, of all members; nothing where there is no such tool.
fn text_of(file: &Path) -> Option<u64> {
    let told = Command::new("size").arg(file).output().ok()?;
    let text = String::from_utf8(told.stdout).ok()?;
    let sizes = text.lines().skip(1).map(|line| line.split_whitespace().next()?.parse::<u64>().ok());
    sizes.sum::<Option<u64>>().filter(|_| told.status.success())
}
