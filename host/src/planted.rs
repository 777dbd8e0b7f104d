//! Errors that the differential test has to find: copies of the model with an edit each (`planted/edits.rs`), and one
//! that reads a byte outside its slice. `planted NAME` compares one of them with the model, so that "the test finds it"
//! can be seen again.

use crate::differential::{number_of, settle_by_the_model, Functions, MODEL};
use crate::model;

// The copies, and `COPIES` with the name and the functions of each.
include!(concat!(env!("OUT_DIR"), "/planted.rs"));

/// By name: the model itself, the one that reads outside, and the copies.
pub fn all() -> Vec<(&'static str, Functions)> {
    let reads_past = Functions { settle: reads_past_the_trip, ..MODEL };
    let others = [("none", MODEL), ("reads_past_the_trip", reads_past)];
    others.into_iter().chain(COPIES).collect()
}

fn reads_past_the_trip(tariff: &[u8], book: &mut [u8], trip: &[u8], statement: &mut [u8]) -> u64 {
    // SAFETY: none, and that is the error.
    let _ = unsafe { trip.as_ptr().add(trip.len()).read_volatile() };
    settle_by_the_model(tariff, book, trip, statement)
}
