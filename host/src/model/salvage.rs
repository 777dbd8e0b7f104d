//! A torn roll: what is kept of it, and what the program that salvages rolls prints.

use super::record::record_at;
use super::trip::Trip;
use std::fmt::Write;

/// A longer roll is not salvaged.
pub const LONGEST_ROLL: usize = 60_000;

/// What is kept, and each longest run of dropped bytes, by its offset and its length.
#[derive(Clone, Debug, Default, PartialEq, Eq)]
pub struct Salvaged {
    pub kept: Vec<u8>,
    pub dropped: Vec<(usize, usize)>,
}

/// Salvages a roll; nothing where it is too long.
pub fn salvage(roll: &[u8]) -> Option<Salvaged> {
    if roll.len() > LONGEST_ROLL {
        return None;
    }
    let mut salvaged = Salvaged::default();
    let mut place = 0;
    while place < roll.len() {
        match kept_at(roll, place) {
            Some(record) => {
                salvaged.kept.extend(record);
                place += record.len();
            }
            None => {
                salvaged.drop_byte(place);
                place += 1;
            }
        }
    }
    Some(salvaged)
}

/// The record that begins at a place, where it is kept: a whole trip record whose class, level, party and number of stops
/// are in their ranges.
fn kept_at(roll: &[u8], place: usize) -> Option<&[u8]> {
    let size = record_at(roll, place)?.size();
    let record = &roll[place..place + size];
    Trip::read(record)?.counts_are_in_range().then_some(record)
}

impl Salvaged {
    fn drop_byte(&mut self, place: usize) {
        match self.dropped.last_mut() {
            Some((offset, length)) if *offset + *length == place => *length += 1,
            _ => self.dropped.push((place, 1)),
        }
    }
}

/// What the program prints of a roll.
pub fn printed(salvaged: &Option<Salvaged>) -> String {
    let Some(salvaged) = salvaged else {
        return "too long\n".to_string();
    };
    salvaged.dropped.iter().fold(String::new(), |mut lines, (offset, length)| {
        writeln!(lines, "{offset} {length}").expect("a string takes all");
        lines
    })
}
