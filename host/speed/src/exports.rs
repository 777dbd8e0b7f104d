//! The tuned side with C's names, to be compiled for x86-64 on another processor (`../x86-64`): a library of its own, which
//! cargo knows nothing of.

mod tuned;

use std::slice::{from_raw_parts, from_raw_parts_mut};

/// # Safety
/// Each pointer comes with its slice's length, and the slices that are written overlap no other.
#[no_mangle]
pub unsafe extern "C" fn tuned_settle(
    tariff: *const u8,
    tariff_len: usize,
    book: *mut u8,
    book_len: usize,
    trip: *const u8,
    trip_len: usize,
    statement: *mut u8,
    statement_len: usize,
) -> u64 {
    let (tariff, trip) = (from_raw_parts(tariff, tariff_len), from_raw_parts(trip, trip_len));
    tuned::settle(tariff, from_raw_parts_mut(book, book_len), trip, from_raw_parts_mut(statement, statement_len))
}

/// # Safety
/// The pointer comes with its slice's length.
#[no_mangle]
pub unsafe extern "C" fn tuned_check_tariff(tariff: *const u8, tariff_len: usize) -> u64 {
    tuned::check_tariff(from_raw_parts(tariff, tariff_len))
}
