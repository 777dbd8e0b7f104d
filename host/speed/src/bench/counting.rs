//! Instructions, counted by valgrind's callgrind.
//!
//! One run of this very program under callgrind counts all calls: it tells callgrind before each call to count, and
//! after it to write the count into a file of its own. A call of a side that does nothing tells what counting costs.

use super::cases::Case;
use super::machine::{tell_callgrind, Word};
use super::room::Room;
use super::sides::{nothing, PerSide, Side};
use milecopper_host::differential::Settle;
use std::ffi::OsStr;
use std::fs::{self, File};
use std::hint::black_box;
use std::io::ErrorKind;
use std::path::Path;
use std::process::{Command, Stdio};

/// The argument of the run under callgrind.
pub const SWITCH: &str = "--calls-to-count";

/// Callgrind counts an instruction that repeats itself once for each byte. These settings keep the C library from using
/// any to copy and fill memory, so that a copied book counts as what a loop of the processor's widest moves counts.
const SETTINGS: &str = "glibc.cpu.x86_rep_movsb_threshold=1000000000:glibc.cpu.x86_rep_stosb_threshold=1000000000";

/// Makes the calls to be counted: for each case one of each side, and one that does nothing.
pub fn make_calls(cases: &[Case], sides: &[Side]) {
    for case in cases {
        for settle in sides.iter().map(|side| side.function(case)).chain([nothing as Settle]) {
            let mut statement = vec![0; case.room];
            // Once before, so that what a first call costs is not counted.
            black_box(settle)(&case.tariff, &mut case.book.clone(), &case.trip, &mut statement);
            let mut book = case.book.clone();
            counted_call(black_box(settle), &case.tariff, &mut book, &case.trip, &mut statement);
        }
    }
}

/// The one call that is counted.
#[inline(never)]
fn counted_call(settle: Settle, tariff: &[u8], book: &mut [u8], trip: &[u8], statement: &mut [u8]) {
    tell_callgrind(Word::Toggle);
    black_box(settle(tariff, book, trip, statement));
    tell_callgrind(Word::Toggle);
    tell_callgrind(Word::Dump);
}

/// The instructions of each case on each side; this program is run with these arguments for it.
pub fn count(cases: &[Case], sides: &[Side], arguments: &[&str]) -> Result<Vec<PerSide<u64>>, String> {
    let room = Room::new()?;
    let program = std::env::current_exe().map_err(|error| format!("this program cannot be found: {error}"))?;
    let out = room.path().join("counts");
    let mut callgrind = callgrind(&out);
    callgrind.arg("--collect-atstart=no").arg(program).args(arguments).stdout(Stdio::null());
    run(&mut callgrind)?;
    let calls = sides.len() + 1;
    let counts = (1..=calls * cases.len()).map(|call| total_in(&out.with_extension(call.to_string())));
    let counts = counts.collect::<Result<Vec<u64>, String>>()?;
    counts.chunks(calls).map(own_counts).collect()
}

/// The counts that x86-64 found, a line a call: of each case the library's, the tuned side's, and that of a call which does
/// nothing. The plain side has none.
pub fn read_counts(file: &str, cases: &[Case]) -> Result<Vec<PerSide<u64>>, String> {
    let text = fs::read_to_string(file).map_err(|error| format!("{file}: {error}"))?;
    let counts: Option<Vec<u64>> = text.lines().map(|line| line.parse().ok()).collect();
    let counts =
        counts.filter(|counts| counts.len() == 3 * cases.len()).ok_or(format!("{file} has no counts of all cases"))?;
    let of_sides = |of_case: &[u64]| Ok(vec![of_case[0] - of_case[2], 0, of_case[1] - of_case[2]]);
    counts.chunks(3).map(of_sides).collect()
}

/// The counts of the sides less that of the one which does nothing, the last.
fn own_counts(of_case: &[u64]) -> Result<PerSide<u64>, String> {
    let fault = || format!("callgrind's counts are not those of single calls: {of_case:?}");
    let (&nothing, sides) = of_case.split_last().filter(|(&nothing, _)| nothing < 200).ok_or_else(fault)?;
    sides.iter().map(|count| count.checked_sub(nothing)).collect::<Option<_>>().ok_or_else(fault)
}

/// The instructions of a whole run of a program that reads this roll and the tariff in this folder.
pub fn count_program(program: &Path, folder: &Path, roll: &Path, room: &Room) -> Result<u64, String> {
    let out = room.path().join("count");
    let roll = File::open(roll).map_err(|error| format!("{}: {error}", roll.display()))?;
    let mut callgrind = callgrind(&out);
    callgrind.arg(program).current_dir(folder).stdin(roll).stdout(Stdio::null());
    run(&mut callgrind)?;
    total_in(&out)
}

fn callgrind(out: &Path) -> Command {
    let mut command = Command::new("valgrind");
    let mut file = OsStr::new("--callgrind-out-file=").to_os_string();
    file.push(out);
    command.arg("--tool=callgrind").arg(file).env("GLIBC_TUNABLES", SETTINGS);
    command
}

fn run(callgrind: &mut Command) -> Result<(), String> {
    let told = callgrind.stderr(Stdio::piped()).output().map_err(|error| match error.kind() {
        ErrorKind::NotFound => "there is no valgrind here".to_string(),
        _ => format!("valgrind: {error}"),
    })?;
    if told.status.success() {
        Ok(())
    } else {
        Err(format!("valgrind ended with {}\n{}", told.status, String::from_utf8_lossy(&told.stderr)))
    }
}

/// The count that callgrind wrote into this file.
fn total_in(file: &Path) -> Result<u64, String> {
    let text = fs::read_to_string(file).map_err(|error| format!("callgrind's count {}: {error}", file.display()))?;
    total_of(&text).ok_or(format!("callgrind's count {} has no total", file.display()))
}

fn total_of(text: &str) -> Option<u64> {
    text.lines().find_map(|line| line.strip_prefix("totals: "))?.trim().parse().ok()
}

#[cfg(test)]
mod tests {
    use super::*;

    #[test]
    fn totals_and_counts() {
        assert_eq!(total_of("events: Ir\nfn=(1) a\n0 7\n\ntotals: 1234\n"), Some(1_234));
        assert_eq!(total_of("events: Ir\n"), None);
        assert_eq!(own_counts(&[110, 120, 130, 10]), Ok(vec![100, 110, 120]));
        assert!(own_counts(&[110, 120, 5, 10]).is_err());
        assert!(own_counts(&[1_100, 1_200, 1_300, 1_000]).is_err());
        assert!(own_counts(&[]).is_err());
    }
}
