//! Settling tuned for speed, without `unsafe`: what the proved library is measured against.
//!
//! - [`numbers`]: little-endian numbers, and the ranges of several at once;
//! - [`editions`]: the tariff file's editions; [`tariff`]: a tariff as it lies in its bytes, its first fault; [`areas`], [`factors`], [`stops`]: its records, many
//!   at once;
//! - [`book`]: the book as it lies in its bytes, when it is sound, its window;
//! - [`calendar`]: stamps and minute numbers; [`trip`]: the trip record; [`parts`]: its way, broken or not;
//! - [`fare`]: kilometres and the price; [`charge`]: caps, charges, bicycles; [`record`]: the charge record;
//! - [`roll`]: the program; [`lines`]: what it prints; [`line`]: a line and its numbers.
//!
//! Nothing is copied: tariff and book are views of the bytes that were lent. Whether all is well is asked of many
//! fields at once, in as few steps as can be; what is not well is found out only then. Most trips are neither refused nor
//! broken, most account holders travel alone, most of a book is 0: that comes first, and all else stands out of its way.
#![forbid(unsafe_code)]

mod areas;
mod book;
mod calendar;
mod charge;
mod editions;
mod factors;
mod fare;
mod line;
mod lines;
mod numbers;
mod parts;
mod record;
mod roll;
mod stops;
mod tariff;
#[cfg(test)]
mod tests;
mod trip;

pub use roll::settle_roll;

use book::Book;
use charge::charge_party;
use editions::{Editions, ROOM};
use fare::Ride;
use parts::Part;
use record::{head_of, record_bytes};
use tariff::Tariff;
use trip::Trip;

/// Whole cents.
type Cents = u32;
/// Started kilometres.
type Km = u32;
/// Minutes, also counted from 2000-01-01 00:00 UTC.
type Minutes = u32;

/// A refusal as the answer has it: its number in the upper half, its place in the lower one.
#[derive(Clone, Copy)]
struct Refusal(u64);

impl Refusal {
    /// Without a place.
    #[cold]
    #[inline(never)]
    fn new(number: u32) -> Refusal {
        Refusal::at(number, 0)
    }

    fn at(number: u32, place: usize) -> Refusal {
        Refusal(u64::from(number) << 32 | place as u64)
    }

    fn number(self) -> u32 {
        (self.0 >> 32) as u32
    }

    fn place(self) -> u32 {
        self.0 as u32
    }
}

/// Checks a tariff alone; the answer is the library's number.
pub fn check_tariff(tariff: &[u8]) -> u64 {
    let mut room = ROOM;
    match Editions::read(tariff, &mut room) {
        Ok(_) => tariff.len() as u64,
        Err(refusal) => refusal.0,
    }
}

/// Settles one trip; the answer is the library's number.
pub fn settle(tariff: &[u8], book: &mut [u8], trip: &[u8], statement: &mut [u8]) -> u64 {
    match try_to_settle(tariff, book, trip, statement) {
        Ok(written) => written as u64,
        Err(refusal) => refusal.0,
    }
}

fn try_to_settle(tariff: &[u8], book: &mut [u8], trip: &[u8], statement: &mut [u8]) -> Result<usize, Refusal> {
    let mut room = ROOM;
    let editions = Editions::read(tariff, &mut room)?;
    let mut book = Book::read(book, editions.areas())?;
    settle_next(&editions, &mut book, trip, statement)
}

/// Settles under a tariff without fault, on a book that is sound.
#[inline(never)]
fn settle_next(editions: &Editions, book: &mut Book, trip: &[u8], statement: &mut [u8]) -> Result<usize, Refusal> {
    let (trip, numbers) = Trip::read(trip)?;
    let window = book.window_for(&trip, editions)?;
    let tariff = editions.tariff(window.edition);
    let parts = trip.parts(numbers, tariff)?;
    let window = window.counting(parts.many())?;
    let bytes = record_bytes(&trip);
    let written = bytes * parts.many();
    let Some((first, second)) = statement.get_mut(..written).map(|records| records.split_at_mut(bytes)) else {
        return Err(Refusal::new(12));
    };
    book.enter(&window, trip.check_out);
    charge_part(tariff, &trip, &parts.first, window.opening, book, first);
    if let Some(part) = parts.second {
        charge_second_part(tariff, &trip, part, window.opening, book, second);
    }
    Ok(written)
}

/// Charges a part, and writes its record.
#[inline(always)]
fn charge_part(tariff: &Tariff, trip: &Trip, part: &Part, opening: Minutes, book: &mut Book, record: &mut [u8]) {
    let ride = Ride::of(tariff, trip, part);
    let bytes = record.len();
    let (head, slots) = record.split_first_chunk_mut().expect("a record has a head");
    *head = head_of(bytes, opening, trip, &ride);
    charge_party(tariff, trip, &ride, book, slots);
}

/// Few trips have one: it stands out of the way.
#[inline(never)]
fn charge_second_part(tariff: &Tariff, trip: &Trip, part: Part, opening: Minutes, book: &mut Book, record: &mut [u8]) {
    charge_part(tariff, trip, &part, opening, book, record);
}
