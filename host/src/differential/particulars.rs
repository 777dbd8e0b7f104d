//! What the run has to meet of single refusals: the ways in which one comes about that few cases show.

use super::books::{word, BYTES, EDITION, LAST_CHECK_OUT, MOST_PAYMENTS, PAYMENTS, TRIPS};
use super::cases::Case;
use super::editions;
use super::faulty::is_faulty;
use super::trips::HOUR;
use crate::model::book::{Book, TRIPS_IN_A_WINDOW};
use crate::model::charge::window_for;
use crate::model::clock::{Stamp, LAST_YEAR};
use crate::model::record::{record_at, Record, KIND_AACHEN_AREA, KIND_AREA};
use crate::model::statement::ChargeRecord;
use crate::model::trip::Trip;
use crate::model::{read_file, Tariff};
use crate::numbers::number;

/// Trips came as this kind before their stamps had offsets.
const KIND_WITHOUT_OFFSETS: u64 = 3;

/// Of a refusal, by its number: a way in which it comes about, and whether it is that of a case that was so refused.
pub type Particular = (u32, &'static str, fn(&Case) -> bool);

/// All of them, with those of editions.
pub fn particulars() -> impl Iterator<Item = Particular> {
    PARTICULARS.into_iter().chain(editions::PARTICULARS)
}

/// The ways in which a refusal of settling with this number came about, given tariff, book, trip and so much room.
pub fn particulars_met(refusal: u32, tariff: &[u8], book: &[u8], trip: &[u8], room: usize) -> Vec<&'static str> {
    let [tariff, book, trip] = [tariff, book, trip].map(<[u8]>::to_vec);
    let case = Case { tariff, book, trip, room, story: Vec::new() };
    particulars().filter(|(number, _, is_met)| *number == refusal && is_met(&case)).map(|(_, way, _)| way).collect()
}

const PARTICULARS: [Particular; 28] = [
    (2, "kind 8 with the body of kind 1", |case| is_faulty(case, |fault| fault.is(KIND_AACHEN_AREA, 25))),
    (2, "kind 1 with the body of kind 8", |case| is_faulty(case, |fault| fault.is(KIND_AREA, 38))),
    (3, "a state of kind 8", |case| {
        is_faulty(case, |fault| fault.is_aachen() && fault.place == fault.first && fault.level() == 0)
    }),
    (3, "a city of kind 8 in a region of kind 1", |case| {
        is_faulty(case, |fault| fault.is_aachen() && fault.region().is_some_and(|region| region.kind == KIND_AREA))
    }),
    (3, "a city of kind 1 in a region of kind 8", |case| {
        is_faulty(case, |fault| !fault.is_aachen() && fault.region().is_some_and(|region| region.kind != KIND_AREA))
    }),
    (3, "child tickets that the sort does not use", |case| {
        let used = |sort| [0, 1, 5].get(sort as usize).copied().unwrap_or(5);
        is_faulty(case, |fault| {
            fault.is_aachen() && fault.tickets()[used(fault.sort())..].iter().any(|&ticket| ticket != 0)
        })
    }),
    (3, "a child ticket above 60,000", |case| {
        is_faulty(case, |fault| fault.is_aachen() && fault.tickets().iter().any(|&ticket| ticket > 60_000))
    }),
    (3, "a bicycle's price above 60,000", |case| {
        is_faulty(case, |fault| fault.is_aachen() && fault.bicycle_price() > 60_000)
    }),
    (3, "a town mark above 2", |case| is_faulty(case, |fault| fault.is_aachen() && fault.mark() > 2)),
    (3, "a region with a town mark", |case| {
        is_faulty(case, |fault| fault.is_aachen() && fault.level() == 1 && (1..3).contains(&fault.mark()))
    }),
    (3, "a city's bicycle cap above its region's", |case| {
        let cap = |area: &Record| number(&area.body[23..25]);
        is_faulty(case, |fault| {
            let region = fault.region().filter(|region| region.kind == KIND_AACHEN_AREA);
            fault.is_aachen() && region.is_some_and(|region| cap(&fault.record) > cap(&region))
        })
    }),
    (4, "payments above 15,360,000", |case| {
        case.book.len() == BYTES && (PAYMENTS..EDITION).any(|place| word(&case.book, place) > MOST_PAYMENTS)
    }),
    (4, "a book of 5,428 bytes, without payments", |case| case.book.len() == 5_428),
    (5, "a record of kind 3", |case| {
        record_at(&case.trip, 0).is_some_and(|record| record.kind == KIND_WITHOUT_OFFSETS)
    }),
    (6, "first class in a marked town, the whole trip", |case| is_in_a_town(case, true)),
    (6, "first class in a marked town, a part alone", |case| is_in_a_town(case, false)),
    (8, "no local date or no clock time", |case| is_wrong(case, |stamp| !is_date_and_time(stamp))),
    (8, "another offset than 1 or 2", |case| is_wrong(case, |stamp| is_date_and_time(stamp) && !stamp.is_offset())),
    (8, "before minute 0 UTC", |case| is_wrong(case, is_before_minute_0)),
    (8, "the check-out alone before minute 0 UTC", |case| {
        Trip::read(&case.trip).is_some_and(|trip| is_right(&trip.check_in) && is_before_minute_0(&trip.check_out))
    }),
    (8, "a local date in 2100, the moment in 2099", |case| is_wrong(case, is_after_midnight_in_2100)),
    (17, "0 minutes", |case| is_mistap_of(case, 0)),
    (17, "1 minute", |case| is_mistap_of(case, 1)),
    (17, "2 minutes", |case| is_mistap_of(case, 2)),
    (17, "with a change", |case| Trip::read(&case.trip).is_some_and(|trip| trip.stops.len() > 2)),
    (17, "before the last check-out, so that 10 holds too", |case| {
        let check_in = Trip::read(&case.trip).and_then(|trip| trip.check_in.minute_number());
        check_in.is_some_and(|check_in| check_in < word(&case.book, LAST_CHECK_OUT))
    }),
    (11, "by the second part alone", |case| word(&case.book, TRIPS) < TRIPS_IN_A_WINDOW),
    (12, "by the second part alone", |case| {
        Trip::read(&case.trip).is_some_and(|trip| ChargeRecord::size(&trip) <= case.room)
    }),
];

/// Whether all that the trip asks for is in range, so that it is refused for a town: that which contains all of its stops,
/// or one that contains a part alone.
fn is_in_a_town(case: &Case, is_whole: bool) -> bool {
    let found = (edition_of(&case.tariff, &case.book, &case.trip), Trip::read(&case.trip));
    let (Some((_, tariff)), Some(trip)) = found else { return false };
    trip.counts_are_in_range() && tariff.areas[tariff.area_of_stops(&trip.stops)].is_marked_town() == is_whole
}

/// The edition under which the trip is settled on this book, its number and its tariff.
pub fn edition_of(tariff: &[u8], book: &[u8], trip: &[u8]) -> Option<(usize, Tariff)> {
    let (file, trip, book) = (read_file(tariff).ok()?, Trip::read(trip)?, Book::read(book)?);
    let window = window_for(book, &file, trip.check_in.minute_number()?, trip.check_out.minute_number()?)?;
    Some((window.edition(), file.tariff(window.edition()).clone()))
}

/// Whether the trip has so many minutes.
fn is_mistap_of(case: &Case, minutes: u64) -> bool {
    let Some(trip) = Trip::read(&case.trip) else { return false };
    let ends = (trip.check_in.minute_number(), trip.check_out.minute_number());
    matches!(ends, (Some(first), Some(last)) if first + minutes == last)
}

/// Whether the first of the trip's stamps that is wrong is so in this way.
fn is_wrong(case: &Case, way: impl Fn(&Stamp) -> bool) -> bool {
    let Some(trip) = Trip::read(&case.trip) else { return false };
    let stamps = [trip.check_in, trip.check_out];
    stamps.iter().find(|stamp| !is_right(stamp)).is_some_and(way)
}

fn is_right(stamp: &Stamp) -> bool {
    stamp.minute_number().is_some()
}

fn is_date_and_time(stamp: &Stamp) -> bool {
    stamp.is_date() && stamp.is_clock_time()
}

/// Nothing else is wrong with it.
fn is_before_minute_0(stamp: &Stamp) -> bool {
    is_date_and_time(stamp) && stamp.is_offset() && !is_right(stamp)
}

fn is_after_midnight_in_2100(stamp: &Stamp) -> bool {
    let is_first_day = (stamp.year, stamp.month, stamp.day) == (LAST_YEAR + 1, 1, 1);
    let since_midnight = HOUR * stamp.hour + stamp.minute;
    is_first_day && stamp.is_clock_time() && stamp.is_offset() && since_midnight < HOUR * stamp.offset
}
