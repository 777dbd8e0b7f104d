//! The rules of docs/RULES.md in the plainest Rust. One file a subject:
//!
//! - [`record`]: the frame of a record, and its fields one after another;
//! - [`editions`]: the tariff file's editions, refusals 1 to 3, and which edition is in force;
//! - [`tariff`]: areas, factors and stops of an edition, the smallest area containing some;
//! - [`book`]: the book's words, and when a book is sound;
//! - [`clock`]: stamps and minute numbers;
//! - [`trip`]: the trip record;
//! - [`parts`]: changes, and the parts in which a trip is charged;
//! - [`fare`]: kilometres and the price, kind by kind;
//! - [`caps`]: the caps of a ride, and which one is named;
//! - [`charge`]: windows, charges and bicycles;
//! - [`statement`]: the charge record;
//! - [`reading`]: charge records read off a statement that was kept;
//! - [`page`]: twelve members' books on one page, six of each of two associations;
//! - [`month`]: a monthly ceiling over settling;
//! - [`correction`]: a roll with one record exchanged, and what that changes for each payer;
//! - [`roll`]: what the program that settles a roll prints;
//! - [`salvage`]: what is kept of a torn roll, and what the program that salvages rolls prints;
//! - [`table`]: what the program that prints statements prints.
//!
//! This file holds settling itself: the refusals in the order of their table, then the writing; and a quote and a posting,
//! each of which writes its half.

pub mod book;
pub mod caps;
pub mod charge;
pub mod clock;
pub mod correction;
pub mod editions;
pub mod fare;
pub mod month;
pub mod page;
pub mod parts;
pub mod reading;
pub mod record;
pub mod roll;
pub mod salvage;
pub mod statement;
pub mod table;
pub mod tariff;
pub mod trip;

use book::{Book, TRIPS_IN_A_WINDOW};
use charge::{costs_of, window_for, Costs};
use clock::MINUTES_IN_A_DAY;
pub use correction::correct;
pub use editions::{read_file, File};
use fare::Ride;
pub use month::settle_month;
pub use page::{add, close, settle_member};
use parts::{parts_of, rides_in_a_marked_town};
pub use reading::read;
pub use roll::settle_roll;
use statement::ChargeRecord;
pub use tariff::Tariff;
use trip::Trip;

/// All money is whole cents.
pub type Cents = u64;
/// Started kilometres.
pub type Km = u64;
/// Metres in one plane.
pub type Metres = u64;
/// Minutes, also counted from 2000-01-01 00:00 UTC.
pub type Minutes = u64;

/// The refusal's number, and its place: for 1 to 3 the offset in the tariff file, else 0.
#[derive(Clone, Copy, Debug, PartialEq, Eq)]
pub struct Refusal {
    pub number: u32,
    pub place: u32,
}

/// Checks a tariff file alone: its length, or its refusal.
pub fn check_tariff(tariff: &[u8]) -> Result<usize, Refusal> {
    read_file(tariff).map(|_| tariff.len())
}

/// Settles one trip. Accepted: the bytes written; the book is replaced, and the charge records of the trip's parts stand
/// one after another at the start of the statement. Refused: book and statement stay.
pub fn settle(tariff: &[u8], book: &mut [u8], trip: &[u8], statement: &mut [u8]) -> Result<usize, Refusal> {
    let (new_book, charge_records) = outcome(tariff, book, trip, statement.len())?;
    book.copy_from_slice(&new_book.bytes());
    Ok(write(&charge_records, statement))
}

/// Quotes one trip. Accepted: the bytes written; the charge records that settling would write stand one after another at
/// the start of the statement. Refused, by 1 to 12, 17 or 22: the statement stays. The book is only read.
pub fn quote(tariff: &[u8], book: &[u8], trip: &[u8], statement: &mut [u8]) -> Result<usize, Refusal> {
    let (_, charge_records) = outcome(tariff, book, trip, statement.len())?;
    Ok(write(&charge_records, statement))
}

/// Posts one trip by the record of its quote. Accepted: the book's length; the book is replaced. Refused, by 1 to 11, 17, 22
/// and at last 13: the book stays. The record is only read.
pub fn post(tariff: &[u8], book: &mut [u8], trip: &[u8], record: &[u8]) -> Result<usize, Refusal> {
    // 1 to 11, 17 and 22. No statement is written, so none can be too short.
    let (new_book, charge_records) = outcome(tariff, book, trip, usize::MAX)?;
    // 13: the record is not exactly the bytes that a quote on this book would write
    unless(record == bytes_of(&charge_records), 13)?;
    book.copy_from_slice(&new_book.bytes());
    Ok(book.len())
}

/// The charge records one after another.
fn bytes_of(charge_records: &[ChargeRecord]) -> Vec<u8> {
    charge_records.iter().flat_map(ChargeRecord::bytes).collect()
}

/// Writes the charge records to the start of the statement, which has room for them. The answer is how many bytes they are.
fn write(charge_records: &[ChargeRecord], statement: &mut [u8]) -> usize {
    let bytes = bytes_of(charge_records);
    statement[..bytes.len()].copy_from_slice(&bytes);
    bytes.len()
}

/// The refusals in the table's order; if none is given, the new book and the charge records. Only reads.
fn outcome(tariff: &[u8], book: &[u8], trip: &[u8], room: usize) -> Result<(Book, Vec<ChargeRecord>), Refusal> {
    // 1, 2, 3
    let file = read_file(tariff)?;
    // 4: book not sound
    let book = Book::read(book).filter(|book| book.is_sound(&file.areas())).ok_or(refused(4))?;
    // 5: the trip's frame and shape
    let trip = Trip::read(trip).ok_or(refused(5))?;
    // 6: its counts
    unless(trip.counts_are_in_range(), 6)?;
    // 8: a stamp with no local date or clock time, with another offset, or before minute 0 UTC
    let check_in = trip.check_in.minute_number().ok_or(refused(8))?;
    let check_out = trip.check_out.minute_number().ok_or(refused(8))?;
    // 9: check-out before check-in, or over 1,440 minutes after it
    unless(check_in <= check_out && check_out <= check_in + MINUTES_IN_A_DAY, 9)?;
    // 17: a mistap, of the trip as it is offered and whatever the book says
    unless(!trip.is_mistap(check_out - check_in), 17)?;
    // 10: check-in before the book's last check-out
    unless(book.trips() == 0 || book.last_check_out() <= check_in, 10)?;
    // 22: it opens a window before the first edition
    let window = window_for(book, &file, check_in, check_out).ok_or(refused(22))?;
    // from here on under the window's edition
    let tariff = file.tariff(window.edition());
    // 7: a stop number the tariff lacks
    unless(trip.stops.iter().all(|&stop| stop < tariff.stops.len()), 7)?;
    // 6 once more: first class where the area of the trip, or of a part, is a marked town
    unless(trip.class != 1 || !rides_in_a_marked_town(tariff, &trip.stops), 6)?;
    // 11: the trip, or its second part, would be the 257th of its window
    let parts = parts_of(tariff, &trip.stops, check_out - check_in);
    unless(window.trips() + parts.len() as u64 <= TRIPS_IN_A_WINDOW, 11)?;
    // 12: statement slice shorter than the charge records
    unless(parts.len() * ChargeRecord::size(&trip) <= room, 12)?;

    // Each part is charged on the sums that the one before left.
    let mut new_book = window;
    let mut charge_records = Vec::new();
    for part in &parts {
        let ride = Ride::of(tariff, &trip, part);
        let Costs { charges, cuts } = costs_of(tariff, &trip, &ride, &mut new_book);
        new_book.count_trip(check_out);
        let (opening, Ride { area, km, minutes, .. }) = (new_book.opening(), ride);
        let Trip { adults, children, bicycles, .. } = trip;
        charge_records.push(ChargeRecord { opening, area, km, minutes, adults, children, bicycles, charges, cuts });
    }
    Ok((new_book, charge_records))
}

/// A refusal that has no place.
fn refused(number: u32) -> Refusal {
    Refusal { number, place: 0 }
}

/// Refuses with this number unless all is well.
fn unless(well: bool, number: u32) -> Result<(), Refusal> {
    if well {
        Ok(())
    } else {
        Err(refused(number))
    }
}
