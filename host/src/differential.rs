//! The differential test: the library and the model settle, quote and post the same cases, and must agree in the answer, in
//! every byte of the book and in every byte of the statement or the record; and they read the same charge records, and must agree
//! in the answer and in every byte of the fields; and they add, settle and close members on the same pages, and must agree in the
//! answer and in every byte of the page and the statement; and they settle the same trips under a monthly ceiling, and must agree
//! in the answer and in every byte of what is kept, of book and statement and of what is due; and they correct the same rolls, and must
//! agree in the answer and in every byte of the statements and the differences.
//!
//! A run has parts, which can be repeated one by one. Part 0 of a seed is a sweep ([`sweeps`]): two good cases, one with a
//! broken trip, and all that lie one step away from them. Every other part is a chain ([`chains`]): trips settled one
//! after another on one book, with damaged cases in between ([`damage`]). Beside many of them stand a quote and a posting
//! ([`quotes`]), behind each part records are read ([`readings`]), and behind some there is a page ([`accounts`]),
//! a ceiling ([`months`]) or a correction ([`corrections`]). What is called on the library's side gets slices beside protected pages ([`guarded`]), so that a byte touched outside them is seen.

mod aachen;
mod accounts;
pub mod books;
mod cases;
mod chains;
mod corrections;
mod counts;
mod cuts;
mod damage;
mod editions;
mod faulty;
mod fields;
mod functions;
mod guarded;
mod kinds;
mod mistaps;
mod months;
mod offers;
mod options;
mod particulars;
mod quotes;
pub mod random;
mod readings;
mod reads;
mod report;
mod run;
mod signals;
pub mod statements;
mod sweeps;
mod tariffs;
pub mod trips;

pub use corrections::correction_met;
pub use counts::Counts;
pub use functions::{
    number_of, settle_by_the_model, ChangePage, Check, Correct, Functions, Post, Quote, Read, Settle, SettleMember,
    SettleMonth, MODEL,
};
pub use months::month_met;
pub use options::{Options, USAGE};
pub use particulars::{edition_of, particulars_met};
pub use run::Difference;

use random::Random;
use run::Run;
use std::ops::RangeInclusive;
use std::process::ExitCode;
use std::time::Instant;

/// Chains of each seed.
const CHAINS: u64 = 2_500;

/// Added to a part's number for the numbers of its readings, so that what is read does not depend on how much was settled.
const READINGS: u64 = 1 << 32;

/// Likewise for the numbers of a page, which one of so many parts has.
const ACCOUNTS: u64 = 2 << 32;
const PARTS_WITH_A_PAGE: u64 = 16;

/// Likewise for those of a ceiling.
const MONTHS: u64 = 3 << 32;
const PARTS_WITH_A_CEILING: u64 = 8;

/// And for those of a correction.
const CORRECTIONS: u64 = 4 << 32;
const PARTS_WITH_A_CORRECTION: u64 = 8;

/// Compares these functions, of whoever is called `name`, with the model. Prints the seeds first and the counts at the end.
/// An error is the first difference, or says what was met too seldom.
pub fn compare(name: &'static str, functions: Functions, options: &Options) -> Result<(), Difference> {
    let seeds: Vec<String> = options.seeds.iter().map(u64::to_string).collect();
    println!("{name} and the model, seeds {}", seeds.join(" "));
    let clock = Instant::now();
    let counts = run_alike(name, functions, options)?;
    println!("no difference\n{counts}\n{:.1} seconds", clock.elapsed().as_secs_f64());
    let too_few = counts.too_few();
    if options.part.is_none() && !too_few.is_empty() {
        return Err(format!("under 1 % of their half: {}", too_few.join(", ")));
    }
    Ok(())
}

/// Has both answer every case. The answer counts the cases; an error is the first difference.
pub fn run_alike(name: &'static str, functions: Functions, options: &Options) -> Result<Counts, Difference> {
    signals::tell_signals();
    let mut run = Run::of(name, functions, options.part.is_some());
    for &seed in &options.seeds {
        for part in options.part.map_or(0..1 + options.longer * CHAINS, |part| part..part + 1) {
            run_part(&mut run, seed, part)?;
        }
    }
    signals::unset_alarm();
    Ok(run.counts)
}

/// Has both answer the cases of these parts of a seed. An error is the first difference.
pub fn run_parts(
    name: &'static str,
    functions: Functions,
    seed: u64,
    parts: RangeInclusive<u64>,
) -> Result<(), Difference> {
    signals::tell_signals();
    let mut run = Run::of(name, functions, false);
    let ran = parts.into_iter().try_for_each(|part| run_part(&mut run, seed, part));
    signals::unset_alarm();
    ran
}

fn run_part(run: &mut Run, seed: u64, part: u64) -> Result<(), Difference> {
    run.start_part(seed, part);
    let mut random = Random::of(seed, part);
    match part {
        0 => sweeps::sweep(&mut random, run)?,
        _ => chains::chain(&mut random, run)?,
    }
    let mut random = Random::of(seed, READINGS + part);
    if part == 0 {
        readings::sweep(&mut random, run)?;
    }
    readings::readings(&mut random, run)?;
    let mut random = Random::of(seed, ACCOUNTS + part);
    if part == 0 {
        accounts::sweep(&mut random, run)?;
    }
    if part.is_multiple_of(PARTS_WITH_A_PAGE) {
        accounts::chain(&mut random, run)?;
    }
    let mut random = Random::of(seed, MONTHS + part);
    if part == 0 {
        months::sweep(&mut random, run)?;
    }
    if part.is_multiple_of(PARTS_WITH_A_CEILING) {
        months::chain(&mut random, run)?;
    }
    let mut random = Random::of(seed, CORRECTIONS + part);
    if part == 0 {
        corrections::sweep(&mut random, run)?;
    }
    if part.is_multiple_of(PARTS_WITH_A_CORRECTION) {
        corrections::chain(&mut random, run)?;
    }
    Ok(())
}

/// The status with which a program that compares ends; an error is printed.
pub fn status(compared: Result<(), Difference>) -> ExitCode {
    match compared {
        Ok(()) => ExitCode::SUCCESS,
        Err(text) => {
            println!("{text}");
            ExitCode::FAILURE
        }
    }
}
