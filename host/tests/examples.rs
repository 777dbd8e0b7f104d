//! The examples of samples/, by the model and by the library.

use milecopper_host::differential::{Functions, MODEL};
use milecopper_host::examples::{run, SettleRoll, FILES};
use milecopper_host::model::settle_roll;

fn all(functions: Functions, roll: Option<SettleRoll>) {
    for (file, text) in FILES {
        match run(text, functions, roll) {
            Ok(offered) => assert!(offered > 100, "{file} has {offered} examples"),
            Err(told) => panic!("{file}, {told}"),
        }
    }
}

#[test]
fn by_the_model() {
    all(MODEL, Some(settle_roll));
}

#[cfg(feature = "library")]
#[test]
fn by_the_library() {
    all(milecopper_host::library::LIBRARY, None);
}
