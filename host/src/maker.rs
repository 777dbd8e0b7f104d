//! Makes bytes from a readable text, so that samples come with their source.
//!
//! docs/TEXT.md says what such a text may have. Its values are checked by the rules, and all mistakes are told with their
//! lines; only where it is raw, numbers are looked at for nothing but their width in bytes, so that bad records can be
//! written, and `record` and `bytes` give any bytes.
//!
//! A case file has sections besides (see [`cases`]).

pub mod cases;
pub mod compare;
pub mod encoding;
mod order;
mod records;
mod stamps;
mod words;

#[cfg(test)]
mod tests;

use records::Records;
use std::fmt;

/// What is wrong with a text, and in which of its lines, counted from 1.
#[derive(Clone, Debug, PartialEq, Eq)]
pub struct Fault {
    pub line: usize,
    pub text: String,
}

impl fmt::Display for Fault {
    fn fmt(&self, out: &mut fmt::Formatter) -> fmt::Result {
        write!(out, "line {}: {}", self.line, self.text)
    }
}

/// How many stops the tariff of some file has, in the edition with the most of them, or why that cannot be told.
pub type StopsOf<'a> = &'a dyn Fn(&str) -> Result<usize, String>;

/// The bytes of a text of records whose values are right; or all of its mistakes.
pub fn checked_bytes_of(text: &str, stops_of: StopsOf) -> Result<Vec<u8>, Vec<Fault>> {
    all_of(text, Records::checked(stops_of))
}

/// The bytes of a raw text; or all of its mistakes.
pub fn raw_bytes_of(text: &str) -> Result<Vec<u8>, Vec<Fault>> {
    all_of(text, Records::default())
}

fn all_of(text: &str, mut records: Records) -> Result<Vec<u8>, Vec<Fault>> {
    let (mut faults, mut last) = (Vec::new(), 1);
    for (line, content) in lines_of(text) {
        let content = without_comment(content);
        let mistakes = records.mistakes_of(line, content);
        faults.extend(mistakes.into_iter().map(|text| Fault { line, text }));
        last = if content.is_empty() { last } else { line };
    }
    faults.extend(records.mistakes_at_the_end().into_iter().map(|text| Fault { line: last, text }));
    match records.finish() {
        Ok(bytes) if faults.is_empty() => return Ok(bytes),
        Ok(_) => (),
        Err(fault) => faults.push(fault),
    }
    Err(faults)
}

/// The bytes of a raw text; or its first mistake.
pub fn bytes_of(text: &str) -> Result<Vec<u8>, Fault> {
    raw_bytes_of(text).map_err(|mut faults| faults.remove(0))
}

/// The lines with their numbers.
fn lines_of(text: &str) -> impl Iterator<Item = (usize, &str)> {
    (1..).zip(text.lines())
}

/// The line up to its comment, without blanks at its ends.
fn without_comment(line: &str) -> &str {
    line.split('#').next().unwrap_or("").trim()
}
