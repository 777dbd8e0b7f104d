//! Compares the model with a copy of it that has an error planted in it: `planted NAME` ends with status 1 and tells the
//! first difference. `planted none` compares the model with itself.

use milecopper_host::differential::{compare, status, Options, USAGE};
use milecopper_host::planted::all;
use milecopper_host::tool::{is_asked, misused};
use std::env;
use std::process::ExitCode;

fn main() -> ExitCode {
    let names: Vec<&str> = all().into_iter().map(|(name, _)| name).collect();
    let usage = format!(
        "usage: planted NAME [SWITCHES]\n{USAGE}\nnames: {}\n\nCompares the model with a copy of it that has this error.",
        names.join(" ")
    );
    if is_asked(&usage) {
        return ExitCode::SUCCESS;
    }
    let wrong = |fault: &str| misused("planted", fault, &usage);
    let options = match Options::of(env::args().skip(1)) {
        Ok(options) => options,
        Err(fault) => return wrong(&fault),
    };
    let [wanted] = &options.names[..] else {
        return wrong("one name is due");
    };
    let Some((_, functions)) = all().into_iter().find(|(name, _)| name == wanted) else {
        return wrong(&format!("'{wanted}' is unknown"));
    };
    status(compare("the copy", functions, &options))
}
