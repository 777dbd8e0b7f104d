//! The Rust host of Milecopper.
//!
//! - [`model`] is an implementation of the rules, written from them alone in the plainest Rust, to be read beside
//!   docs/RULES.md.
//! - [`maker`] makes tariffs, trips and whole case files from a readable text.
//! - [`numbers`] reads and puts little-endian numbers, for both.
//! - [`answer`] takes the number that settling, a quote, a posting and a reading answer apart.
//! - [`offered`] makes records, right and wrong, for a posting.
//! - `library` (feature `library`) is what the library offers, in safe Rust.
//! - [`examples`] runs the examples of samples/ on anything that offers the same.
//! - [`differential`] compares the library with the model on many cases.
//! - [`conformance`] makes the conformance suite, and answers its cases.
//! - [`drawing`] draws which crate uses which.
//! - `stack` (feature `library`) paints the stack that a call of the library runs on.
//! - [`tool`] is what every program says of itself.
//! - `planted` (feature `planted`) holds copies of the model with an error in each, to show that the comparison finds it.

pub mod answer;
pub mod conformance;
pub mod differential;
pub mod drawing;
pub mod examples;
#[cfg(feature = "library")]
pub mod library;
pub mod maker;
pub mod model;
pub mod numbers;
pub mod offered;
// not where the library's own tests are compiled: they do not need the copies, whose compiling takes most of the time
#[cfg(all(feature = "planted", not(test)))]
pub mod planted;
#[cfg(feature = "library")]
pub mod stack;
pub mod tool;
