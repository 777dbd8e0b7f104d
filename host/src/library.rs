//! What the library offers, in safe Rust.

use crate::answer::Answer;
use crate::differential::Functions;

extern "C" {
    pub(crate) fn milecopper_check_tariff(tariff: *const u8, tariff_len: usize) -> u64;
    pub(crate) fn milecopper_settle(
        tariff: *const u8,
        tariff_len: usize,
        book: *mut u8,
        book_len: usize,
        trip: *const u8,
        trip_len: usize,
        statement: *mut u8,
        statement_len: usize,
    ) -> u64;

    pub(crate) fn milecopper_quote(
        tariff: *const u8,
        tariff_len: usize,
        book: *const u8,
        book_len: usize,
        trip: *const u8,
        trip_len: usize,
        statement: *mut u8,
        statement_len: usize,
    ) -> u64;

    pub(crate) fn milecopper_post(
        tariff: *const u8,
        tariff_len: usize,
        book: *mut u8,
        book_len: usize,
        trip: *const u8,
        trip_len: usize,
        record: *const u8,
        record_len: usize,
    ) -> u64;

    pub(crate) fn milecopper_read(
        statement: *const u8,
        statement_len: usize,
        at: usize,
        fields: *mut u8,
        fields_len: usize,
    ) -> u64;

    pub(crate) fn milecopper_add(page: *mut u8, page_len: usize, association: u32, member: u32) -> u64;
    pub(crate) fn milecopper_close(page: *mut u8, page_len: usize, association: u32, member: u32) -> u64;
    pub(crate) fn milecopper_settle_member(
        tariff: *const u8,
        tariff_len: usize,
        page: *mut u8,
        page_len: usize,
        association: u32,
        member: u32,
        trip: *const u8,
        trip_len: usize,
        statement: *mut u8,
        statement_len: usize,
    ) -> u64;

    pub(crate) fn milecopper_settle_month(
        ceiling: u32,
        kept: *mut u8,
        kept_len: usize,
        tariff: *const u8,
        tariff_len: usize,
        book: *mut u8,
        book_len: usize,
        trip: *const u8,
        trip_len: usize,
        statement: *mut u8,
        statement_len: usize,
        due: *mut u8,
        due_len: usize,
    ) -> u64;

    pub(crate) fn milecopper_correct(
        tariff: *const u8,
        tariff_len: usize,
        roll: *const u8,
        roll_len: usize,
        n: u32,
        replacement: *const u8,
        replacement_len: usize,
        statements: *mut u8,
        statements_len: usize,
        differences: *mut u8,
        differences_len: usize,
    ) -> u64;
}

/// A faultless tariff's length, or the number that settling under it gives.
pub fn check_tariff(tariff: &[u8]) -> u64 {
    // SAFETY: the pointer comes with its slice's own length and is never null. The bytes are only read, and no pointer is
    // kept.
    unsafe { milecopper_check_tariff(tariff.as_ptr(), tariff.len()) }
}

/// The ten functions, each with the answer's number as the library gives it.
pub const LIBRARY: Functions = Functions {
    check: check_tariff,
    settle: settle_to_number,
    quote: quote_to_number,
    post: post_to_number,
    read: read_to_number,
    add: add_to_number,
    close: close_to_number,
    settle_member: settle_member_to_number,
    settle_month: settle_month_to_number,
    correct: correct_to_number,
};

pub fn settle_to_number(tariff: &[u8], book: &mut [u8], trip: &[u8], statement: &mut [u8]) -> u64 {
    // SAFETY: each pointer comes with its slice's own length, and a slice's pointer is never null. The mutable slices,
    // here and below, overlap nothing, by the rules of borrowing, and nobody else can look at them during the call. The
    // others are only read. The library keeps no pointer.
    unsafe {
        milecopper_settle(
            tariff.as_ptr(),
            tariff.len(),
            book.as_mut_ptr(),
            book.len(),
            trip.as_ptr(),
            trip.len(),
            statement.as_mut_ptr(),
            statement.len(),
        )
    }
}

pub fn quote_to_number(tariff: &[u8], book: &[u8], trip: &[u8], statement: &mut [u8]) -> u64 {
    // SAFETY: as above.
    unsafe {
        milecopper_quote(
            tariff.as_ptr(),
            tariff.len(),
            book.as_ptr(),
            book.len(),
            trip.as_ptr(),
            trip.len(),
            statement.as_mut_ptr(),
            statement.len(),
        )
    }
}

pub fn post_to_number(tariff: &[u8], book: &mut [u8], trip: &[u8], record: &[u8]) -> u64 {
    // SAFETY: as above.
    unsafe {
        milecopper_post(
            tariff.as_ptr(),
            tariff.len(),
            book.as_mut_ptr(),
            book.len(),
            trip.as_ptr(),
            trip.len(),
            record.as_ptr(),
            record.len(),
        )
    }
}

pub fn read_to_number(statement: &[u8], at: usize, fields: &mut [u8]) -> u64 {
    // SAFETY: as above. Any offset may be given.
    unsafe { milecopper_read(statement.as_ptr(), statement.len(), at, fields.as_mut_ptr(), fields.len()) }
}

pub fn add_to_number(page: &mut [u8], association: u32, member: u32) -> u64 {
    // SAFETY: as above. Any numbers may be given, here and below.
    unsafe { milecopper_add(page.as_mut_ptr(), page.len(), association, member) }
}

pub fn close_to_number(page: &mut [u8], association: u32, member: u32) -> u64 {
    // SAFETY: as above.
    unsafe { milecopper_close(page.as_mut_ptr(), page.len(), association, member) }
}

pub fn settle_member_to_number(
    tariff: &[u8],
    page: &mut [u8],
    association: u32,
    member: u32,
    trip: &[u8],
    statement: &mut [u8],
) -> u64 {
    // SAFETY: as above.
    unsafe {
        milecopper_settle_member(
            tariff.as_ptr(),
            tariff.len(),
            page.as_mut_ptr(),
            page.len(),
            association,
            member,
            trip.as_ptr(),
            trip.len(),
            statement.as_mut_ptr(),
            statement.len(),
        )
    }
}

pub fn settle_month_to_number(
    ceiling: u32,
    kept: &mut [u8],
    tariff: &[u8],
    book: &mut [u8],
    trip: &[u8],
    statement: &mut [u8],
    due: &mut [u8],
) -> u64 {
    // SAFETY: as above.
    unsafe {
        milecopper_settle_month(
            ceiling,
            kept.as_mut_ptr(),
            kept.len(),
            tariff.as_ptr(),
            tariff.len(),
            book.as_mut_ptr(),
            book.len(),
            trip.as_ptr(),
            trip.len(),
            statement.as_mut_ptr(),
            statement.len(),
            due.as_mut_ptr(),
            due.len(),
        )
    }
}

pub fn correct_to_number(
    tariff: &[u8],
    roll: &[u8],
    n: u32,
    replacement: &[u8],
    statements: &mut [u8],
    differences: &mut [u8],
) -> u64 {
    // SAFETY: as above.
    unsafe {
        milecopper_correct(
            tariff.as_ptr(),
            tariff.len(),
            roll.as_ptr(),
            roll.len(),
            n,
            replacement.as_ptr(),
            replacement.len(),
            statements.as_mut_ptr(),
            statements.len(),
            differences.as_mut_ptr(),
            differences.len(),
        )
    }
}

/// Settles one trip. Accepted: the book is replaced, and the charge records stand at the start of the statement. Refused:
/// book and statement stay.
pub fn settle(tariff: &[u8], book: &mut [u8], trip: &[u8], statement: &mut [u8]) -> Answer {
    answer_of(settle_to_number(tariff, book, trip, statement))
}

/// Quotes one trip. Accepted: the charge records that settling would write stand at the start of the statement. Refused:
/// the statement stays.
pub fn quote(tariff: &[u8], book: &[u8], trip: &[u8], statement: &mut [u8]) -> Answer {
    answer_of(quote_to_number(tariff, book, trip, statement))
}

/// Posts one trip by the record of its quote. Accepted: the book is replaced. Refused: it stays.
pub fn post(tariff: &[u8], book: &mut [u8], trip: &[u8], record: &[u8]) -> Answer {
    answer_of(post_to_number(tariff, book, trip, record))
}

/// Reads the charge record at an offset. Accepted: its bytes, and its fields stand at the start of `fields`. Refused: they stay.
pub fn read(statement: &[u8], at: usize, fields: &mut [u8]) -> Answer {
    answer_of(read_to_number(statement, at, fields))
}

/// Adds a member of an association to a page. Accepted: number and fresh book stand in the lowest of its free places. Refused:
/// the page stays.
pub fn add(page: &mut [u8], association: u32, member: u32) -> Answer {
    answer_of(add_to_number(page, association, member))
}

/// Closes a member's account. Accepted: the place is cleared. Refused: the page stays.
pub fn close(page: &mut [u8], association: u32, member: u32) -> Answer {
    answer_of(close_to_number(page, association, member))
}

/// Settles one trip of a member on a page. Accepted: that member's book is replaced, and the charge records stand at the start
/// of the statement. Refused: page and statement stay.
pub fn settle_member(
    tariff: &[u8],
    page: &mut [u8],
    association: u32,
    member: u32,
    trip: &[u8],
    statement: &mut [u8],
) -> Answer {
    answer_of(settle_member_to_number(tariff, page, association, member, trip, statement))
}

/// Settles one trip under a monthly ceiling. Accepted: as by [`settle`], and what is due stands at the start of `due`, and the
/// month with the amount collected in it in `kept`. Refused: all four stay.
pub fn settle_month(
    ceiling: u32,
    kept: &mut [u8],
    tariff: &[u8],
    book: &mut [u8],
    trip: &[u8],
    statement: &mut [u8],
    due: &mut [u8],
) -> Answer {
    answer_of(settle_month_to_number(ceiling, kept, tariff, book, trip, statement, due))
}

/// Corrects one record of a roll, counted from 1. Accepted: the bytes of all statements of the corrected roll, which stand at the start
/// of `statements`, and each payer's new sum less the old one at the start of `differences`. Nothing where no trip of it is accepted: then
/// there is no statement, and the differences are written all the same. Refused: both stay.
pub fn correct(
    tariff: &[u8],
    roll: &[u8],
    n: u32,
    replacement: &[u8],
    statements: &mut [u8],
    differences: &mut [u8],
) -> Option<Answer> {
    match correct_to_number(tariff, roll, n, replacement, statements, differences) {
        0 => None,
        number => Some(answer_of(number)),
    }
}

fn answer_of(number: u64) -> Answer {
    Answer::of(number).unwrap_or_else(|| panic!("the library answered {number}, which stands for nothing"))
}
