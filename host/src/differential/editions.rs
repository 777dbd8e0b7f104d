//! What the run has to meet of editions: kinds of acceptance, and ways in which 2, 3, 4, 7, 10 and 22 come about.

use super::books::{word, BYTES, EDITION, TRIPS};
use super::cases::Case;
use super::faulty::openings_before;
use super::particulars::Particular;
use crate::model::book::Book;
use crate::model::clock::Date;
use crate::model::record::{record_at, Fields, Record, KIND_EDITION};
use crate::model::trip::Trip;
use crate::model::{read_file, File, Minutes};

pub const EDITIONS: [&str; 9] = [
    "under the first of two editions",
    "under the second edition",
    "a stop that the other edition lacks",
    RARE[0],
    RARE[1],
    RARE[2],
    RARE[3],
    RARE[4],
    RARE[5],
];

/// These are enough if they are met at all.
pub const RARE: [&str; 6] = [
    "a window opened under the second edition, the one before under the first",
    "in an open window of the first edition, the second in force",
    "in an open window of the second edition, the first in force",
    "in an open window, before the first edition",
    "a window opened at an edition's first minute",
    "a window opened in the minute before the second edition",
];

/// The window is the one that the trip finds, the book the one that was given.
pub fn kinds_of_editions(
    file: &File,
    trip: &Trip,
    book: &Book,
    window: &Book,
    check_in: Minutes,
) -> [bool; EDITIONS.len()] {
    let (edition, is_opened) = (window.edition(), window.trips() == 0);
    let in_force = file.in_force(check_in);
    let since = |number: usize| file.editions.get(number - 1).map(|edition| edition.since);
    let is_one_of_two = file.editions.len() == 2;
    let is_lacking = |other: usize| trip.stops.iter().any(|&stop| stop >= file.tariff(other).stops.len());
    [
        is_one_of_two && edition == 1,
        edition == 2,
        is_one_of_two && is_lacking(3 - edition),
        is_opened && edition == 2 && book.edition() == 1,
        !is_opened && edition == 1 && in_force == Some(2),
        !is_opened && edition == 2 && in_force == Some(1),
        !is_opened && in_force.is_none(),
        is_opened && since(edition) == Some(check_in),
        is_opened && since(2) == Some(check_in + 1),
    ]
}

pub const PARTICULARS: [Particular; 25] = [
    (2, "an empty file", |case| case.tariff.is_empty()),
    (2, "a first record that is not kind 9", |case| is_at(case, |at| at.place == 0 && at.is_other_kind())),
    (2, "kind 9 with another body", |case| is_at(case, |at| at.is_opening(|body| body != 4))),
    (2, "kind 9 with another body, the first record", |case| {
        is_at(case, |at| at.place == 0 && at.is_opening(|body| body != 4))
    }),
    (2, "a third kind 9", |case| is_at(case, |at| at.openings.len() == 2 && at.is_opening(|body| body == 4))),
    (2, "kind 9 where an area is due, in the first edition", |case| is_at(case, |at| at.is_after_an_opening(1))),
    (2, "kind 9 where a factor record is due", |case| is_at(case, |at| at.is_where_a_factor_is_due())),
    (2, "the end where an area is due, in the first edition", |case| is_at(case, |at| at.ends_after_an_opening(1))),
    (2, "the end where an area is due, in the second edition", |case| is_at(case, |at| at.ends_after_an_opening(2))),
    (2, "the end where a factor record is due, in the second edition", |case| {
        is_at(case, |at| at.openings.len() == 2 && at.record.is_none() && !at.is_behind_the_opening())
    }),
    (3, "no date, in the first edition", |case| is_at(case, |at| at.openings.is_empty() && at.date().is_some())),
    (3, "no date, in the second edition", |case| {
        is_at(case, |at| at.openings.len() == 1 && at.date().is_some_and(|date| date.first_minute().is_none()))
    }),
    (3, "an edition's year before 2000 or after 2099", |case| {
        is_at(case, |at| at.date().is_some_and(|date| !(2_000..2_100).contains(&date.year)))
    }),
    (3, "both editions from one day", |case| is_at(case, |at| at.dates().is_some_and(|[one, two]| one == two))),
    (3, "the second edition before the first", |case| is_at(case, |at| at.dates().is_some_and(|[one, two]| two < one))),
    (3, "a record of the second edition", |case| is_at(case, |at| at.openings.len() == 2)),
    (4, "an edition above the file's", |case| {
        let many = read_file(&case.tariff).map_or(2, |file| file.editions.len() as u64);
        case.book.len() == BYTES && word(&case.book, EDITION) > many
    }),
    (4, "edition 2 of a file of one", |case| {
        let is_one = read_file(&case.tariff).is_ok_and(|file| file.editions.len() == 1);
        is_one && case.book.len() == BYTES && word(&case.book, EDITION) == 2
    }),
    (4, "an open window without an edition", |case| {
        case.book.len() == BYTES && word(&case.book, TRIPS) != 0 && word(&case.book, EDITION) == 0
    }),
    (4, "an edition, and all else is zero", |case| {
        let is_zero = case.book.len() == BYTES && case.book[..BYTES - 4].iter().all(|&byte| byte == 0);
        is_zero && word(&case.book, EDITION) != 0
    }),
    (4, "a covering area that the book's edition lacks and the other has", |case| {
        let (Ok(file), Some(book)) = (read_file(&case.tariff), Book::read(&case.book)) else { return false };
        let areas = file.areas();
        let covering: Vec<usize> = (0..10).filter_map(|bicycle| book.covering_area(bicycle)).collect();
        matches!((&areas[..], book.edition()), (&[one, two], 1 | 2)
            if !covering.iter().all(|&area| area < [one, two][book.edition() - 1])
                && covering.iter().all(|&area| area < one.max(two)))
    }),
    (4, "a book of 5,468 bytes, without an edition", |case| case.book.len() == 5_468),
    (10, "a stop that the tariff lacks, so that 7 holds too", |case| {
        Trip::read(&case.trip).is_some_and(|trip| trip.stops.contains(&65_535))
    }),
    (22, "a fresh book", |case| word(&case.book, TRIPS) == 0),
    (22, "a window that the trip no longer belongs to", |case| word(&case.book, TRIPS) != 0),
];

/// Where a file's first fault is.
struct At<'a> {
    place: usize,
    /// The record there, if its frame is whole.
    record: Option<Record<'a>>,
    /// Where the editions before it begin.
    openings: Vec<usize>,
    tariff: &'a [u8],
}

fn is_at(case: &Case, like: impl Fn(&At) -> bool) -> bool {
    let Err(refusal) = read_file(&case.tariff) else { return false };
    let place = refusal.place as usize;
    let (tariff, openings) = (&case.tariff[..], openings_before(&case.tariff, place));
    like(&At { place, record: record_at(tariff, place), openings, tariff })
}

impl At<'_> {
    fn is_other_kind(&self) -> bool {
        self.record.as_ref().is_some_and(|record| record.kind != KIND_EDITION)
    }

    /// Whether it is a record of kind 9 with such a body.
    fn is_opening(&self, body: impl Fn(usize) -> bool) -> bool {
        self.record.as_ref().is_some_and(|record| record.kind == KIND_EDITION && body(record.body.len()))
    }

    fn is_behind_the_opening(&self) -> bool {
        self.openings.last().is_some_and(|opening| opening + 8 == self.place)
    }

    fn is_after_an_opening(&self, many: usize) -> bool {
        self.openings.len() == many && self.is_behind_the_opening() && self.is_opening(|body| body == 4)
    }

    fn ends_after_an_opening(&self, many: usize) -> bool {
        self.openings.len() == many && self.is_behind_the_opening() && self.place == self.tariff.len()
    }

    /// An opening with areas before it, the first one's.
    fn is_where_a_factor_is_due(&self) -> bool {
        self.openings.len() == 1 && !self.is_behind_the_opening() && self.is_opening(|body| body == 4)
    }

    /// The date of an opening.
    fn date(&self) -> Option<Date> {
        let record = self.record.as_ref().filter(|record| record.kind == KIND_EDITION && record.body.len() == 4);
        record.map(|record| Date::read(&mut Fields::of(record.body)))
    }

    /// The first minutes of the first edition and of this one, where it has a date.
    fn dates(&self) -> Option<[Minutes; 2]> {
        let first = record_at(self.tariff, *self.openings.first()?)?;
        let first = Date::read(&mut Fields::of(first.body)).first_minute()?;
        Some([first, self.date()?.first_minute()?])
    }
}
