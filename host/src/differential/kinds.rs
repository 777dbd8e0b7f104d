//! The kinds of acceptance that the run has to meet.

use super::aachen::{self, kinds_of_aachen, AACHEN};
use super::cases::Case;
use super::cuts::{self, kinds_of_cuts, CUTS};
use super::editions::{self, kinds_of_editions, EDITIONS};
use super::mistaps::{kinds_of_mistaps, NEARLY};
use crate::model::book::Book;
use crate::model::charge::{costs_of, window_for};
use crate::model::clock::{Stamp, MINUTES_IN_AN_HOUR};
use crate::model::fare::{price, squared_distance, Ride};
use crate::model::parts::{farthest_change, parts_of};
use crate::model::read_file;
use crate::model::statement::ChargeRecord;
use crate::model::tariff::{Area, Level, Tariff, TripCap};
use crate::model::trip::Trip;
use crate::model::Minutes;

/// Those of a trip.
const OF_A_TRIP: [&str; 18] = [
    "next window opened",
    "first class",
    "child",
    "over midnight",
    "largest record",
    "both stamps with offset 1",
    "both stamps with offset 2",
    "offset 1, then 2",
    "offset 2, then 1",
    "the check-out earlier than the check-in by the clock",
    "check-in in the first two hours from minute 0 on",
    "broken, first and last stop at the same point",
    "broken by the factor",
    "exactly at the factor, not broken",
    "not broken inside a city whose region says so",
    "broken, and another change is as far",
    "largest statement",
    "broken, and a bicycle pays per trip in both parts",
];

/// Those of a part of one.
const OF_A_PART: [&str; 3] = ["bicycle moved up", "several periods", "price cut by a trip cap"];

/// All of them, with those of cuts, of kind 8, of trips that are nearly mistaps and of editions.
pub const KINDS: [&[&str]; 6] = [&OF_A_TRIP, &OF_A_PART, &CUTS, &AACHEN, &NEARLY, &EDITIONS];

/// Whether a kind is enough if it is met at all.
pub fn is_rare(kind: &str) -> bool {
    kind == cuts::RARE || [&aachen::RARE[..], &NEARLY, &editions::RARE].concat().contains(&kind)
}

/// Which kinds an accepted case is of; it may be of several, or of none.
pub fn kinds_of(case: &Case, records: &[ChargeRecord]) -> Vec<bool> {
    let file = read_file(&case.tariff).expect("accepted, so faultless");
    let trip = Trip::read(&case.trip).expect("accepted, so a trip");
    let before = Book::read(&case.book).expect("accepted, so a book");
    let check_in = trip.check_in.minute_number().expect("accepted, so a time");
    let duration = records[0].minutes;
    let was_open = before.trips() != 0;
    let mut book = window_for(before.clone(), &file, check_in, check_in + duration).expect("accepted, so an edition");
    let of_editions = kinds_of_editions(&file, &trip, &before, &book, check_in);
    let tariff = file.tariff(book.edition());
    let of_trip = [
        was_open && book.trips() == 0,
        trip.class == 1,
        trip.children > 0,
        trip.check_in.day != trip.check_out.day,
        records[0].charges.len() == 31,
    ];
    let of_stamps = kinds_of_stamps(&trip, check_in);
    let of_breaking = kinds_of_breaking(tariff, &trip, records.len() == 2);
    let (mut of_part, mut of_cuts) = ([false; OF_A_PART.len()], [false; CUTS.len()]);
    let mut of_aachen = [false; AACHEN.len()];
    let mut paid = vec![book.payments(0)];
    for (part, record) in parts_of(tariff, &trip.stops, duration).iter().zip(records) {
        let ride = Ride::of(tariff, &trip, part);
        join(&mut of_part, &kinds_of_part(tariff, &trip, &ride, &book, record));
        join(&mut of_cuts, &kinds_of_cuts(tariff, &trip, &ride, &book, record));
        join(&mut of_aachen, &kinds_of_aachen(tariff, &trip, &ride, &book, record));
        costs_of(tariff, &trip, &ride, &mut book);
        paid.push(book.payments(0));
    }
    let of_paying = [paid.len() == 3 && paid[0] < paid[1] && paid[1] < paid[2]];
    let of_mistaps = kinds_of_mistaps(tariff, &trip, records);
    let of_trip = [of_trip.as_slice(), &of_stamps, &of_breaking, &of_paying].concat();
    [of_trip.as_slice(), &of_part, &of_cuts, &of_aachen, &of_mistaps, &of_editions].concat()
}

/// Those of one, and those of another besides.
pub fn join(kinds: &mut [bool], others: &[bool]) {
    for (kind, is_of_it) in kinds.iter_mut().zip(others) {
        *kind |= is_of_it;
    }
}

/// The check-in's minute is of UTC.
fn kinds_of_stamps(trip: &Trip, check_in: Minutes) -> [bool; 6] {
    let (first, last) = (&trip.check_in, &trip.check_out);
    let by_the_clock = |stamp: &Stamp| (stamp.year, stamp.month, stamp.day, stamp.hour, stamp.minute);
    let are = |one, other| (first.offset, last.offset) == (one, other);
    [
        are(1, 1),
        are(2, 2),
        are(1, 2),
        are(2, 1),
        by_the_clock(last) < by_the_clock(first),
        check_in < 2 * MINUTES_IN_AN_HOUR,
    ]
}

fn kinds_of_breaking(tariff: &Tariff, trip: &Trip, is_broken: bool) -> [bool; 6] {
    let Some(change) = farthest_change(tariff, &trip.stops) else { return [false; 6] };
    let (last, area) = (trip.stops.len() - 1, tariff.area_of_stops(&trip.stops));
    let rule = tariff.factor_for(area);
    let is_kept = tariff.areas[area].level == Level::City && rule.keeps_city_trips;
    let distance = |place: usize| squared_distance(&tariff.stops[trip.stops[0]], &tariff.stops[trip.stops[place]]);
    let (out, across) = (distance(change), rule.factor * rule.factor * distance(last));
    [
        is_broken && across == 0,
        is_broken && across != 0,
        !is_broken && !is_kept && across != 0 && out == across,
        !is_broken && is_kept && (across == 0 || out > across),
        is_broken && (change + 1..last).any(|later| distance(later) == out),
        is_broken && trip.adults + trip.children + trip.bicycles == 30,
    ]
}

/// The book is the one that the part finds.
fn kinds_of_part(tariff: &Tariff, trip: &Trip, ride: &Ride, book: &Book, record: &ChargeRecord) -> [bool; 3] {
    let area = &tariff.areas[ride.area];
    let uncapped = Area { trip_cap: TripCap::None, ..area.clone() };
    [
        (0..trip.bicycles).any(|bicycle| {
            let old = book.covering_area(bicycle);
            old.is_some_and(|old| !tariff.contains(old, ride.area))
        }),
        record.minutes > area.base_validity,
        price(area, ride) < price(&uncapped, ride),
    ]
}
