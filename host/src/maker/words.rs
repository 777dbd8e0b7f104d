//! The words of one line, taken one after another. An error is a text; the caller knows the line.
//!
//! Where values are checked, one that is not allowed is noted and the line goes on, so that all of its mistakes are told.
//! A word that is missing, or another one than is due, ends the line.

use std::ops::RangeInclusive;
use std::str::{FromStr, SplitWhitespace};

pub struct Words<'a> {
    rest: SplitWhitespace<'a>,
    checks: bool,
    /// What was noted.
    pub mistakes: Vec<String>,
}

impl<'a> Words<'a> {
    /// Numbers are only looked at for their width in bytes.
    pub fn of(line: &'a str) -> Self {
        Words { rest: line.split_whitespace(), checks: false, mistakes: Vec::new() }
    }

    /// Numbers have to be those that are allowed.
    pub fn checked(line: &'a str) -> Self {
        Words { checks: true, ..Words::of(line) }
    }

    pub fn checks(&self) -> bool {
        self.checks
    }

    /// The next word, which is there to say `what`.
    pub fn next(&mut self, what: &str) -> Result<&'a str, String> {
        self.rest.next().ok_or_else(|| format!("{what} is missing"))
    }

    /// The next word is this one.
    pub fn fixed(&mut self, word: &str) -> Result<(), String> {
        match self.next(&format!("the word '{word}'"))? {
            found if found == word => Ok(()),
            found => Err(format!("the word '{word}' is due, not '{found}'")),
        }
    }

    /// The next word is a number that fits in `width` bytes.
    pub fn number(&mut self, what: &str, width: usize) -> Result<u64, String> {
        fitting(what, self.next(what)?, width)
    }

    /// The next word is a number that fits in `width` bytes, and where values are checked one of those allowed.
    pub fn number_in(&mut self, what: &str, width: usize, allowed: &RangeInclusive<u64>) -> Result<u64, String> {
        let word = self.next(what)?;
        self.value_in(what, word, width, allowed)
    }

    /// The next two words are a field's name and its number.
    pub fn field(&mut self, name: &str, width: usize, allowed: &RangeInclusive<u64>) -> Result<u64, String> {
        self.fixed(name)?;
        self.number_in(name, width, allowed)
    }

    /// The number that this word writes; 0 stands for one that was noted and does not fit.
    pub fn value_in(
        &mut self,
        what: &str,
        word: &str,
        width: usize,
        allowed: &RangeInclusive<u64>,
    ) -> Result<u64, String> {
        if !self.checks {
            return fitting(what, word, width);
        }
        let value = whole(what, word).unwrap_or_else(|text| {
            self.mistakes.push(text);
            *allowed.start()
        });
        if !allowed.contains(&value) {
            self.mistakes.push(format!("{what} {} is not allowed, only {}", with_commas(value), in_words(allowed)));
        }
        Ok(if value < 1 << (8 * width) { value } else { 0 })
    }

    /// All further words.
    pub fn all(&mut self) -> Vec<&'a str> {
        self.rest.by_ref().collect()
    }

    /// No word is left.
    pub fn end(&mut self) -> Result<(), String> {
        match self.rest.next() {
            None => Ok(()),
            Some(word) => Err(format!("'{word}' is one word too many")),
        }
    }
}

/// A range as a person says it.
fn in_words(allowed: &RangeInclusive<u64>) -> String {
    let (least, most) = (with_commas(*allowed.start()), with_commas(*allowed.end()));
    match allowed.end() - allowed.start() {
        0 => least,
        1 => format!("{least} or {most}"),
        _ => format!("{least} to {most}"),
    }
}

/// A number with a comma before each three digits.
pub fn with_commas(number: u64) -> String {
    let digits = number.to_string();
    let mut text = String::new();
    for (place, digit) in digits.chars().enumerate() {
        if place > 0 && (digits.len() - place).is_multiple_of(3) {
            text.push(',');
        }
        text.push(digit);
    }
    text
}

/// The number that a word writes, if it fits in `width` bytes.
pub fn fitting(what: &str, word: &str, width: usize) -> Result<u64, String> {
    let value = whole(what, word)?;
    if value >= 1 << (8 * width) {
        return Err(format!("{what} {value} does not fit in {width} byte{}", if width == 1 { "" } else { "s" }));
    }
    Ok(value)
}

/// The number that a word of digits writes.
pub fn whole(what: &str, word: &str) -> Result<u64, String> {
    let digits_only = word.bytes().all(|byte| byte.is_ascii_digit());
    match u64::from_str(word) {
        Ok(value) if digits_only => Ok(value),
        _ => Err(format!("{what} '{word}' is not a number")),
    }
}

/// The bytes that words of hexadecimal digits write, two digits a byte.
pub fn hexadecimal(words: &[&str]) -> Result<Vec<u8>, String> {
    let mut bytes = Vec::new();
    for word in words {
        let well = word.len() % 2 == 0 && word.bytes().all(|byte| byte.is_ascii_hexdigit());
        if !well {
            return Err(format!("'{word}' is not hexadecimal, two digits a byte"));
        }
        for place in (0..word.len()).step_by(2) {
            bytes.push(u8::from_str_radix(&word[place..place + 2], 16).expect("two hexadecimal digits"));
        }
    }
    Ok(bytes)
}
