//! The benchmark: the proved library and the program beside the plain implementation of the rules and the tuned one,
//! which is the yardstick. It prints a page of tables in Markdown.
//!
//! - [`sides`]: those that settle; [`agree`]: all make the same of every case before anything is measured;
//! - [`inputs`], [`cases`], [`rolls`]: the tariffs, the calls and the rolls, all seeded;
//! - [`timing`]: medians of alternating samples; [`counting`]: instructions, by callgrind;
//! - [`sizes`]: bytes of the archive and the programs;
//! - [`machine`]: what all these need and safe Rust cannot do;
//! - [`programs`]: the program that settles a roll and the tuned one, run as processes;
//! - [`report`], [`runs`], [`tables`]: what is printed;
//! - [`effort`]: how much is measured; [`room`]: a temporary folder.

mod agree;
mod cases;
mod counting;
mod effort;
mod inputs;
mod machine;
mod programs;
mod report;
mod rolls;
mod room;
mod runs;
mod sides;
mod sizes;
mod tables;
mod timing;

use cases::{Case, Group};
use effort::Effort;
use milecopper_host::stack;
use programs::Programs;
use report::Measured;
use sides::sides;
use std::process::Command;
use std::{env, fs};
use tables::{with_commas, Verdicts};

pub const USAGE: &str = "usage: bench [--quick | --check] [--without-tuned]
  --quick           fewer samples
  --check           nothing is measured: every case once on all sides, which have to agree
  --without-tuned   the tuned side is left out
or: bench --cases           prints the calls for x86_64/calls.c
or: bench --counted FILE    prints the tables of what was counted there";

const WITHOUT_TUNED: &str = "--without-tuned";

/// Does what the arguments ask for.
pub fn run(arguments: impl Iterator<Item = String>) -> Result<(), String> {
    let arguments: Vec<String> = arguments.collect();
    let with_tuned = !arguments.iter().any(|word| word == WITHOUT_TUNED);
    let words: Vec<&str> = arguments.iter().map(String::as_str).filter(|&word| word != WITHOUT_TUNED).collect();
    let cases = cases::all();
    match words[..] {
        [] => measure(&cases, &effort::FULL, with_tuned),
        ["--quick"] => measure(&cases, &effort::QUICK, with_tuned),
        ["--check"] => check(&cases, with_tuned),
        ["--cases"] => {
            print!("{}", cases::in_c(&cases));
            Ok(())
        }
        ["--counted", file] => report_counted(&cases, file),
        [counting::SWITCH] => {
            counting::make_calls(&cases, sides(with_tuned));
            Ok(())
        }
        _ => Err(USAGE.to_string()),
    }
}

fn check(cases: &[Case], with_tuned: bool) -> Result<(), String> {
    agree::all_agree(cases, sides(with_tuned))?;
    let programs = match runs::agree(&Programs::find(with_tuned)?)? {
        0 => "the programs were NOT compared, as one is for another processor".to_string(),
        rolls => format!("the programs agree on {rolls} rolls"),
    };
    let names: Vec<&str> = sides(with_tuned).iter().map(|side| side.name).collect();
    println!("bench: {} agree on {} cases; {programs}", names.join(", "), cases.len());
    Ok(())
}

fn measure(cases: &[Case], effort: &Effort, with_tuned: bool) -> Result<(), String> {
    let sides = sides(with_tuned);
    let programs = Programs::find(with_tuned)?;
    let verdicts = &mut Verdicts::default();
    agree::all_agree(cases, sides)?;
    eprintln!("counting the instructions of calls");
    let switches = [counting::SWITCH, WITHOUT_TUNED];
    let counts = counting::count(cases, sides, if with_tuned { &switches[..1] } else { &switches });
    head(effort, counts.as_ref().err());
    if !with_tuned {
        println!("- The tuned side is left out: it lags behind the rules");
        verdicts.leave_out("the ratios to the tuned side, which lags behind the rules");
    }
    eprintln!("timing calls");
    let measured: Vec<Measured> = (0..cases.len())
        .map(|place| {
            let case = &cases[place];
            let times = (case.group != Group::Refused).then(|| timing::time(case, effort, sides));
            Measured { case, times, instructions: counts.as_ref().ok().map(|counts| counts[place].clone()) }
        })
        .collect();
    report::report(&measured, sides, verdicts);
    runs::report(&programs, effort, counts.is_ok(), verdicts)?;
    report_stack(cases, verdicts);
    sizes::report(&programs)?;
    print!("\n## The aims\n\n{verdicts}");
    Ok(())
}

/// The tables of the instructions that were counted for x86-64 on another processor (x86-64).
fn report_counted(cases: &[Case], file: &str) -> Result<(), String> {
    let counts = counting::read_counts(file, cases)?;
    println!("# Counted for x86_64\n\n`host/benchmark --x86-64` wrote this page, on {}.\n", env::consts::ARCH);
    println!("- CPU: none; the toolchain's emulator shows each instruction, and no time is taken");
    println!("- The library: the archive as it is shipped");
    println!(
        "- The tuned side: {}'s LLVM module, compiled by the toolchain's compiler for baseline x86-64",
        version("rustc")
    );
    println!("- Copying and filling count as a loop of moves of 16 bytes (`host/speed/x86_64/calls.c`)");
    let verdicts = &mut Verdicts::default();
    let measured: Vec<Measured> = cases
        .iter()
        .zip(counts)
        .map(|(case, counts)| Measured { case, times: None, instructions: Some(counts) })
        .collect();
    report::report(&measured, sides(true), verdicts);
    verdicts.leave_out("times, and the programs");
    print!("\n## The aims\n\n{verdicts}");
    Ok(())
}

/// What a command says of its version.
fn version(command: &str) -> String {
    printed_by(command, &["--version"]).unwrap_or("unknown".to_string()).trim().to_string()
}

/// The most stack that a call of the library takes.
fn report_stack(cases: &[Case], verdicts: &mut Verdicts) {
    println!("\n## The stack of a call\n");
    if !stack::IS_PAINTED {
        println!("NOT measured: a stack is painted on x86-64 and aarch64 only.");
        verdicts.leave_out("the library's stack");
        return;
    }
    let depth = |case: &Case| {
        let slices = [&case.tariff[..], &case.book, &case.trip, &vec![0; case.room]];
        stack::depth_of(stack::SETTLE, &stack::Call::of(&slices, [0; 2]))
    };
    let most = cases.iter().filter(|case| case.group != Group::Tariff).map(depth).max().unwrap_or(0);
    let allowed = stack::FUNCTIONS[stack::SETTLE].limit;
    let limit = with_commas(allowed as u64);
    let aim = format!("the stack of a call in bytes: at most {limit}");
    let verdict = verdicts.judge(&aim, most as f64, allowed as f64, 0);
    println!("The library takes {} bytes at most over all cases: {verdict}, of {limit}.", with_commas(most as u64));
}

/// On what it was measured, and how. `uncounted` says why no instructions were counted, if so.
fn head(effort: &Effort, uncounted: Option<&String>) {
    println!("# Measured on {}\n\n`host/benchmark` wrote this page.\n", env::consts::ARCH);
    println!("- CPU: {} ({})", cpu().unwrap_or("unknown".to_string()), env::consts::ARCH);
    println!("- Rust: {}, release with link-time optimisation", version("rustc"));
    println!(
        "- Times: medians of {} samples a side, the sides alternating; a sample is some {} µs of calls, each on one of \
         {} books in turn; of the programs, medians of the processor's time of {} alternating runs",
        effort.samples,
        effort.sample.as_micros(),
        timing::BOOKS,
        effort.runs
    );
    let load = fs::read_to_string("/proc/loadavg").unwrap_or_default();
    println!("- Load average when it began: {}", load.split(' ').next().unwrap_or("unknown"));
    match uncounted {
        None => println!("- Instructions: by callgrind, {}", version("valgrind")),
        Some(why) => {
            eprintln!("NO INSTRUCTIONS ARE COUNTED: {why}");
            println!("- Instructions: NOT counted: {}", why.lines().next().unwrap_or(""));
        }
    }
}

/// The model's name: of /proc/cpuinfo, or where that has none, of lscpu.
fn cpu() -> Option<String> {
    let text = fs::read_to_string("/proc/cpuinfo").unwrap_or_default() + &printed_by("lscpu", &[]).unwrap_or_default();
    let line = text.lines().find(|line| line.to_lowercase().starts_with("model name"))?;
    Some(line.split_once(':')?.1.trim().to_string())
}

fn printed_by(command: &str, words: &[&str]) -> Option<String> {
    let told = Command::new(command).args(words).output().ok()?;
    String::from_utf8(told.stdout).ok()
}
