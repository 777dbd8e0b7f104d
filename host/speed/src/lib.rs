//! How fast Milecopper is.
//!
//! - [`tuned`] is an implementation tuned for speed without `unsafe`, the yardstick. It may lag behind the rules: then
//!   `host/benchmark` says so, and measures without it.
//! - [`bench`] measures the library and the program beside it and the plain implementation of the rules.

pub mod bench;
pub mod tuned;
