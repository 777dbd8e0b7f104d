//! Compares the library with the model on many cases. Ends with status 1 at the first difference, and where a refusal or
//! a kind of acceptance was met too seldom.

use milecopper_host::differential::{compare, status, Options, USAGE};
use milecopper_host::library::LIBRARY;
use milecopper_host::tool::{is_asked, misused};
use std::env;
use std::process::ExitCode;

fn main() -> ExitCode {
    let usage = format!("usage: differential [SWITCHES]\n{USAGE}\n\nCompares the library with the plain implementation of the rules on many cases.");
    if is_asked(&usage) {
        return ExitCode::SUCCESS;
    }
    match Options::of(env::args().skip(1)) {
        Ok(options) if options.names.is_empty() => status(compare("the library", LIBRARY, &options)),
        Ok(options) => misused("differential", &format!("'{}' is not asked for", options.names[0]), &usage),
        Err(fault) => misused("differential", &fault, &usage),
    }
}
