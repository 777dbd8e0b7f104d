//! A monthly ceiling: a trip is settled as without it, and of its charges so much is due as the month of its check-in has left
//! below the ceiling. What was collected is kept beside the book, as a month and the amount collected in it.

use super::clock::{Moment, FIRST_YEAR};
use super::statement::ChargeRecord;
use super::trip::Trip;
use super::{outcome, refused, unless, write, Cents, Minutes, Refusal};
use crate::numbers::{number, put};

/// A ceiling and an amount kept are at most so many cents.
pub const MOST: Cents = 1_000_000;
/// The month and the amount, 4 bytes each.
pub const KEPT_BYTES: usize = 8;
pub const DUE_BYTES: usize = 4;

/// Settles one trip under a monthly ceiling. Accepted: as settling; what is due stands at the start of `due`, and in `kept` the
/// trip's month with the amount collected in it. Refused, by 24 and then as settling is: what is kept, book, statement and what
/// is due stay.
pub fn settle_month(
    ceiling: u32,
    kept: &mut [u8],
    tariff: &[u8],
    book: &mut [u8],
    trip: &[u8],
    statement: &mut [u8],
    due: &mut [u8],
) -> Result<usize, Refusal> {
    // 24: the ceiling or the amount above the most, or no pair
    let ceiling = Cents::from(ceiling);
    unless(ceiling <= MOST, 24)?;
    let found = Kept::read(kept).filter(|found| found.amount <= MOST).ok_or(refused(24))?;
    // settling's; 12 also where there is no room for what is due, since every trip has a record
    let room = if due.len() < DUE_BYTES { 0 } else { statement.len() };
    let (new_book, charge_records) = outcome(tariff, book, trip, room)?;

    let trip = Trip::read(trip).expect("accepted, so a trip");
    let month = month_of(trip.check_in.minute_number().expect("accepted, so a time"));
    // any other month than the kept one starts at 0
    let before = if found.month == month { found.amount } else { 0 };
    let charged: Cents = charge_records.iter().map(ChargeRecord::total).sum();
    let collected = charged.min(ceiling.saturating_sub(before));
    book.copy_from_slice(&new_book.bytes());
    kept.copy_from_slice(&Kept { month, amount: before + collected }.bytes());
    due[..DUE_BYTES].copy_from_slice(&four_bytes(collected));
    Ok(write(&charge_records, statement))
}

/// The month of a minute of UTC, in months since January 2000.
pub fn month_of(minute: Minutes) -> u64 {
    let Moment { year, month, .. } = Moment::of(minute);
    12 * (year - FIRST_YEAR) + month - 1
}

/// What is kept beside a book.
#[derive(Clone, Debug, PartialEq, Eq)]
pub struct Kept {
    /// In months since January 2000.
    pub month: u64,
    /// What was collected in it.
    pub amount: Cents,
}

impl Kept {
    /// Nothing where it has another length.
    pub fn read(bytes: &[u8]) -> Option<Kept> {
        (bytes.len() == KEPT_BYTES).then(|| Kept { month: number(&bytes[..4]), amount: number(&bytes[4..]) })
    }

    pub fn bytes(&self) -> Vec<u8> {
        [four_bytes(self.month), four_bytes(self.amount)].concat()
    }
}

fn four_bytes(value: u64) -> Vec<u8> {
    let mut bytes = Vec::new();
    put(&mut bytes, 4, value);
    bytes
}
