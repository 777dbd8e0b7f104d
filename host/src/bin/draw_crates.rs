//! The drawing of which crate uses which.

use milecopper_host::drawing::drawing_of;
use milecopper_host::tool::{is_asked, misused};
use std::path::Path;
use std::process::ExitCode;
use std::{env, fs};

const USAGE: &str = "usage: draw_crates CHECKOUT

Prints, as SVG, which crate of a checkout uses which, by its crates.txt.";

fn main() -> ExitCode {
    if is_asked(USAGE) {
        return ExitCode::SUCCESS;
    }
    let names: Vec<String> = env::args().skip(1).collect();
    let Some(checkout) = names.first().filter(|name| names.len() == 1 && !name.starts_with('-')) else {
        return misused("draw_crates", "a checkout is due", USAGE);
    };
    let root = Path::new(checkout);
    match fs::read_to_string(root.join("crates.txt")) {
        Ok(crates) => {
            print!("{}", drawing_of(&crates, &|name| root.join("crates").join(name).join("src/main.rt").exists()));
            ExitCode::SUCCESS
        }
        Err(error) => {
            eprintln!("draw_crates: {checkout}/crates.txt: {error}");
            ExitCode::FAILURE
        }
    }
}
