//! The conformance suite, for whoever writes or runs another implementation of these rules: calls, each with all that it is given
//! and all that has to come of it.
//!
//! - [`case`] is a case, and the line of JSON that it is written as.
//! - [`answering`] answers a case that comes as a line of text, by whoever offers the functions.
//! - `recorder` (feature `library`) notes the calls that are made of the library, and keeps those that show something new.
//! - `shows` says what a call shows; `due` what the suite has to show.
//! - `nights`, `again` and `pages` make cases that the examples and the differential test have too few of.
//!
//! A new function is an entry in each of `answering`, `recorder` and `due`, and in host/conformance/answer.c.

#[cfg(feature = "library")]
mod again;
pub mod answering;
pub mod case;
#[cfg(feature = "library")]
pub mod due;
#[cfg(feature = "library")]
mod nights;
#[cfg(feature = "library")]
mod pages;
#[cfg(feature = "library")]
mod recorder;
#[cfg(feature = "library")]
mod shows;

#[cfg(feature = "library")]
pub use made::{make, Suite};

#[cfg(feature = "library")]
mod made {
    use super::answering::{answer_line, line_of};
    use super::case::Case;
    use super::recorder::{start, take, told_from, RECORDED};
    use super::{again, due, nights, pages};
    use crate::differential::{run_parts, Functions, MODEL};
    use crate::examples::{run, FILES};
    use crate::library::LIBRARY;
    use std::collections::BTreeMap;

    /// The seed of the differential test whose chains are taken, and how many of them.
    const SEED: u64 = 46;
    const CHAINS: u64 = 300;

    /// Cases in the order in which they were made, and how many show what.
    pub struct Suite {
        pub cases: Vec<Case>,
        pub shown: BTreeMap<String, usize>,
    }

    /// Makes the suite. An error tells of which case library and model differ, or what is shown too seldom.
    pub fn make() -> Result<Suite, String> {
        start();
        nights::ride();
        for (name, text) in FILES {
            told_from(&format!("samples/{name}"));
            run(text, RECORDED, None)?;
        }
        told_from("a chain of the differential test");
        run_parts("the library", RECORDED, SEED, 1..=CHAINS)?;
        again::settle();
        pages::keep();
        let suite = take();
        suite.cases.iter().try_for_each(agree)?;
        due::missing(&suite).map_or(Ok(suite), Err)
    }

    /// Library and model answer the case as it is written.
    fn agree(case: &Case) -> Result<(), String> {
        let line = line_of(case);
        for (name, functions) in [("the library", LIBRARY), ("the model", MODEL)] as [(&str, Functions); 2] {
            let told = answer_line(&functions, &line)?;
            if told != case.answer_line() {
                return Err(format!("{name} answers another thing than is written\n{line}\n{told}"));
            }
        }
        Ok(())
    }
}
