//! Answers the cases of the conformance suite by the plain implementation of the rules.

use milecopper_host::conformance::answering::answer_line;
use milecopper_host::differential::MODEL;
use milecopper_host::tool::{is_asked, misused};
use std::env;
use std::io::{self, BufWriter, Write};
use std::process::ExitCode;

const USAGE: &str = "usage: answer_cases

Answers cases of the conformance suite by the plain implementation of the rules: reads a line a case from standard input, as the suite's
README.md says, and writes a line with the answer. Ends with status 1 at a line that is no case.";

fn main() -> ExitCode {
    if is_asked(USAGE) {
        return ExitCode::SUCCESS;
    }
    if let Some(word) = env::args().nth(1) {
        return misused("answer_cases", &format!("'{word}' is not asked for"), USAGE);
    }
    match answer_all() {
        Ok(()) => ExitCode::SUCCESS,
        Err(told) => {
            eprintln!("answer_cases: {told}");
            ExitCode::FAILURE
        }
    }
}

fn answer_all() -> Result<(), String> {
    let mut out = BufWriter::new(io::stdout());
    for (number, line) in (1..).zip(io::stdin().lines()) {
        let line = line.map_err(|error| format!("standard input: {error}"))?;
        let answer = answer_line(&MODEL, &line).map_err(|fault| format!("line {number}: {fault}"))?;
        writeln!(out, "{answer}").map_err(|error| format!("standard output: {error}"))?;
    }
    out.flush().map_err(|error| format!("standard output: {error}"))
}
