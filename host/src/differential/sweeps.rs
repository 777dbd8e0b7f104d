//! Two good cases under files of two editions, one under each of the two and one of them with a broken trip, and all that lie one
//! step away from each: each field at each of its edges, each record of the tariff left out or put in once more anywhere, each
//! bit flipped, each cut, each word of the book a little off, each length of the statement, each record that is not quite the
//! quote, the ends of months, of trips and of editions, the first and the last hours, short trips at one stop. And the largest
//! file, with what may stand behind it.

use super::books::{fresh, set_word, word, BICYCLES, BYTES, EDITION, LAST_CHECK_OUT, MOST_PAYMENTS, PAYMENTS, WORDS};
use super::cases::Case;
use super::fields::{set, stop_field, value, values, Field, Layout, AACHEN_AREA, COUNT_FIELDS, FACTOR, OPENING_FIELDS};
use super::fields::{CHECK_IN, FACTOR_FIELDS, KINDS, LENGTHS, NUMBER_OF_STOPS, STAMP, STAMP_FIELDS, STOP, STOP_FIELDS};
use super::quotes::records_beside;
use super::random::Random;
use super::run::{Difference, Run};
use super::tariffs::{edition, largest_file, opening, ordinary_tariff};
use super::trips::{local_stamp, plan, start, Plan, DAY, LAST_MINUTE};
use crate::model::read_file;
use crate::model::statement::LARGEST_STATEMENT;
use crate::model::tariff::{Area, Level};
use crate::model::trip::Trip;
use std::ops::Range;

const AREAS: usize = 6;
const STOPS: usize = 12;
const TRIPS_BEFORE: usize = 6;

pub fn sweep(random: &mut Random, run: &mut Run) -> Result<(), Difference> {
    for parts in [1, 2] {
        let good = good_case(random, run, parts)?;
        tariff_fields(run, &good)?;
        tariff_records(run, &good)?;
        trip_fields(run, &good)?;
        let own = &layouts(&good)[parts - 1];
        let is_own = |place| own.opening <= place && place < own.end();
        let some = |place| if is_own(place) { 0..8 } else { place % 8..place % 8 + 1 };
        bits_and_cuts(run, &good, |case| &mut case.tariff, "tariff", some)?;
        bits_and_cuts(run, &good, |case| &mut case.trip, "trip", |_| 0..8)?;
        book_words(run, &good)?;
        book_lengths(run, &good)?;
        statement_lengths(run, &good)?;
        records_beside(run, &good)?;
        month_ends(run, &good)?;
        first_and_last_hours(run, &good)?;
        short_trips(run, &good)?;
        edition_dates(run, &good)?;
        around_the_change(run, &good)?;
        behind_the_largest(random, run, &good)?;
    }
    Ok(())
}

/// A trip with some of everything that is charged in so many parts, after a few others on the same book. In one part it is
/// settled under the first edition, in two under the second.
fn good_case(random: &mut Random, run: &mut Run, parts: usize) -> Result<Case, Difference> {
    let now = 30 * DAY + start(random) / 2;
    let second = if parts == 1 { now / DAY + 2 } else { now / DAY - 2 };
    let bytes = [edition(0, &good_tariff(random)), edition(second, &good_tariff(random))].concat();
    let file = read_file(&bytes).expect("the makers of tariffs make no faults");
    let tariff = file.tariff(parts).clone();
    let mut book = fresh();
    for _ in 0..TRIPS_BEFORE {
        let plan = Plan { party: [2, 2, 2], ..plan(random, &tariff, &book, now) };
        book = run.check(&case_of(&bytes, &book, &plan, plan.parts(&tariff)))?.book;
    }
    loop {
        let plan = Plan { party: [1, 2, 3], ..plan(random, &tariff, &book, now) };
        let (has_class, is_one_stop) = (plan.class == 2 || !plan.is_in_a_marked_town(&tariff), plan.is_at_one_stop());
        if plan.parts(&tariff) == parts && has_class && !is_one_stop {
            return Ok(case_of(&bytes, &book, &plan, parts));
        }
    }
}

/// A tariff that has both kinds of region, and a marked town.
fn good_tariff(random: &mut Random) -> Vec<u8> {
    loop {
        let bytes = ordinary_tariff(random, AREAS, STOPS);
        let file = read_file(&edition(0, &bytes)).expect("the makers of tariffs make no faults");
        let tariff = file.tariff(1);
        let has_common_region = tariff.areas.iter().any(|area| area.level == Level::Region && !area.is_aachen());
        if has_common_region && tariff.areas.iter().any(Area::is_marked_town) {
            return bytes;
        }
    }
}

fn case_of(tariff: &[u8], book: &[u8], plan: &Plan, parts: usize) -> Case {
    let (tariff, book, trip) = (tariff.to_vec(), book.to_vec(), plan.bytes());
    Case { tariff, book, trip, room: parts * plan.record_bytes(), story: vec!["the good case of a sweep"] }
}

/// The good case with one change.
fn check_with(
    run: &mut Run,
    good: &Case,
    story: &'static str,
    change: impl FnOnce(&mut Case),
) -> Result<(), Difference> {
    let mut case = good.clone();
    change(&mut case);
    case.story.push(story);
    run.check(&case).map(drop)
}

fn layouts(good: &Case) -> Vec<Layout> {
    Layout::all_of(&read_file(&good.tariff).expect("a good case"))
}

fn tariff_fields(run: &mut Run, good: &Case) -> Result<(), Difference> {
    layouts(good).iter().try_for_each(|layout| edition_fields(run, good, layout))
}

fn edition_fields(run: &mut Run, good: &Case, layout: &Layout) -> Result<(), Difference> {
    let opening = [(0, layout.opening, &OPENING_FIELDS[..])].into_iter();
    let areas = (0..AREAS).map(|area| (area, layout.area(area), layout.area_fields(area)));
    let factors = (0..layout.factors).map(|factor| (0, layout.factor(factor), &FACTOR_FIELDS[..]));
    let stops = (0..STOPS).map(|stop| (0, layout.stop(stop), &STOP_FIELDS[..]));
    for (number, record, fields) in opening.chain(areas).chain(factors).chain(stops) {
        for field in fields {
            let present = value(&good.tariff, record, field).expect("a field of the tariff");
            for value in values(field, present, &[AREAS, number]) {
                let change = |case: &mut Case| set(&mut case.tariff, record, field, value);
                check_with(run, good, "a field of the tariff at an edge", change)?;
            }
        }
    }
    Ok(())
}

/// Each record left out, and each put in once more at each place.
fn tariff_records(run: &mut Run, good: &Case) -> Result<(), Difference> {
    let mut places: Vec<usize> = layouts(good).iter().flat_map(Layout::places).collect();
    // The first edition ends where the second begins.
    places.dedup();
    for ends in places.windows(2) {
        let record = good.tariff[ends[0]..ends[1]].to_vec();
        check_with(run, good, "a record left out", |case| drop(case.tariff.drain(ends[0]..ends[1])))?;
        for &place in &places {
            let change = |case: &mut Case| drop(case.tariff.splice(place..place, record.clone()));
            check_with(run, good, "a record once more", change)?;
        }
    }
    Ok(())
}

fn trip_fields(run: &mut Run, good: &Case) -> Result<(), Difference> {
    let stops = value(&good.trip, 0, &NUMBER_OF_STOPS).expect("a number of stops") as usize;
    let heads = [LENGTHS, KINDS, NUMBER_OF_STOPS];
    let of_stops: Vec<Field> = (0..stops).map(stop_field).collect();
    for field in heads.iter().chain(STAMP_FIELDS.as_flattened()).chain(&COUNT_FIELDS).chain(&of_stops) {
        let present = value(&good.trip, 0, field).expect("a field of the trip");
        for value in values(field, present, &[STOPS]) {
            let change = |case: &mut Case| set(&mut case.trip, 0, field, value);
            check_with(run, good, "a field of the trip at an edge", change)?;
        }
    }
    Ok(())
}

/// Of each byte these bits are flipped: all, or of the edition that does not settle the trip one.
fn bits_and_cuts(
    run: &mut Run,
    good: &Case,
    slice: fn(&mut Case) -> &mut Vec<u8>,
    what: &'static str,
    bits: impl Fn(usize) -> Range<usize>,
) -> Result<(), Difference> {
    let length = slice(&mut good.clone()).len();
    for place in 0..length {
        for bit in bits(place) {
            check_with(run, good, "a bit flipped", |case| slice(case)[place] ^= 1 << bit)?;
        }
        check_with(run, good, "cut", |case| slice(case).truncate(place))?;
    }
    for more in 1..=STOP + AACHEN_AREA + FACTOR {
        // Zeros, and the same bytes once more.
        check_with(run, good, what, |case| slice(case).resize(length + more, 0))?;
        check_with(run, good, what, |case| {
            let again: Vec<u8> = slice(case).iter().copied().cycle().take(more).collect();
            slice(case).extend(again);
        })?;
    }
    Ok(())
}

fn book_words(run: &mut Run, good: &Case) -> Result<(), Difference> {
    for place in 0..WORDS {
        let present = word(&good.book, place);
        let mut tried = vec![0, 1, present.saturating_sub(1), present + 1, u64::from(u32::MAX)];
        if place < 3 {
            tried.extend([255, 256, 257, present + 1_440, present + 1_441, 52_595_999, 52_596_000]);
        }
        if (BICYCLES..PAYMENTS).contains(&place) {
            tried.extend([AREAS as u64, AREAS as u64 + 1, 32, 33]);
        }
        if (PAYMENTS..EDITION).contains(&place) {
            tried.extend([300, MOST_PAYMENTS, MOST_PAYMENTS + 1]);
        }
        if place == EDITION {
            tried.extend([2, 3, 256, 257]);
        }
        for value in tried {
            check_with(run, good, "a word of the book", |case| set_word(&mut case.book, place, value))?;
        }
    }
    Ok(())
}

fn book_lengths(run: &mut Run, good: &Case) -> Result<(), Difference> {
    // 5,428 bytes had a book before it had payments, 5,468 before it had an edition.
    for length in (0..12).chain(5_416..5_440).chain(BYTES - 12..BYTES + 12) {
        check_with(run, good, "a book of another length", |case| case.book.resize(length, 0))?;
    }
    Ok(())
}

fn statement_lengths(run: &mut Run, good: &Case) -> Result<(), Difference> {
    for length in 0..good.room + 40 {
        check_with(run, good, "a statement of another length", |case| case.room = length)?;
        run.check_quote(&Case { room: length, ..good.clone() })?;
    }
    Ok(())
}

/// The last days of every month of the century, and those that a month lacks, on a fresh book.
fn month_ends(run: &mut Run, good: &Case) -> Result<(), Difference> {
    for (year, month) in (2_000..2_100).flat_map(|year| (1..=12).map(move |month| (year, month))) {
        for day in 28..=31 {
            let change = |case: &mut Case| {
                case.book = fresh();
                for stamp in &STAMP_FIELDS {
                    for (field, value) in stamp.iter().zip([year, month, day, 23, 59, 1 + month % 2]) {
                        set(&mut case.trip, 0, field, value);
                    }
                }
            };
            check_with(run, good, "the end of a month", change)?;
        }
    }
    Ok(())
}

/// The first and the last hours by the local clock, each with every pair of offsets around 1 and 2, on a fresh book.
fn first_and_last_hours(run: &mut Run, good: &Case) -> Result<(), Difference> {
    let offsets = || (0..=3).flat_map(|first| (0..=3).map(move |second| [first, second]));
    let minutes = [0, 1, 58, 59, 60, 61, 118, 119, 120, 121].into_iter();
    let minutes = minutes.clone().chain(minutes.map(|minute| LAST_MINUTE - 90 + minute));
    for (check_in, later) in minutes.flat_map(|minute| [0, 30, 60, 61].map(|later| (minute, later))) {
        for [first, second] in offsets() {
            let stamps = [local_stamp(check_in, first), local_stamp(check_in + later, second)];
            let change = |case: &mut Case| {
                case.book = fresh();
                case.trip[CHECK_IN..][..2 * STAMP].copy_from_slice(stamps.as_flattened());
            };
            check_with(run, good, "the first or the last hours", change)?;
        }
    }
    Ok(())
}

/// Trips of 0 to 4 minutes through one stop so many times, and with another stop at any place; 10 holds of none of them, and
/// then of each.
fn short_trips(run: &mut Run, good: &Case) -> Result<(), Difference> {
    let trip = Trip::read(&good.trip).expect("a good case");
    let check_in = trip.check_in.minute_number().expect("a good case");
    let lasts = [word(&good.book, LAST_CHECK_OUT), check_in + 1];
    for (many, minutes) in [2, 3, 32].into_iter().flat_map(|many| (0..5).map(move |minutes| (many, minutes))) {
        let others = (0..many).map(|place| (place, (trip.stops[0] + 1) % STOPS));
        for (place, stop) in others.chain([(0, trip.stops[0])]) {
            let mut stops = vec![trip.stops[0]; many];
            stops[place] = stop;
            let (check_out, party) = (check_in + minutes, [1, 2, 3]);
            let plan = Plan { check_in, check_out, offsets: [1, 1], class: 2, level: 0, party, stops };
            for last in lasts {
                let change = |case: &mut Case| {
                    case.trip = plan.bytes();
                    case.room = LARGEST_STATEMENT;
                    set_word(&mut case.book, LAST_CHECK_OUT, last);
                };
                check_with(run, good, "a short trip", change)?;
            }
        }
    }
    Ok(())
}

/// Each edition's date at the ends of every month of some years, and at days that a month lacks, on a fresh book.
fn edition_dates(run: &mut Run, good: &Case) -> Result<(), Difference> {
    for layout in layouts(good) {
        let years = [1_999, 2_000, 2_001, 2_004, 2_026, 2_096, 2_099, 2_100];
        for (year, month) in years.into_iter().flat_map(|year| (0..=13).map(move |month| (year, month))) {
            for day in [0, 1, 28, 29, 30, 31, 32] {
                let change = |case: &mut Case| {
                    case.book = fresh();
                    for (field, value) in OPENING_FIELDS[2..].iter().zip([year, month, day]) {
                        set(&mut case.tariff, layout.opening, field, value);
                    }
                };
                check_with(run, good, "the date of an edition", change)?;
            }
        }
    }
    Ok(())
}

/// Trips that begin in the minutes around the first of each edition, and that end there, on a fresh book, on one with an open window
/// of each edition, and on one whose window has just ended.
fn around_the_change(run: &mut Run, good: &Case) -> Result<(), Difference> {
    let trip = Trip::read(&good.trip).expect("a good case");
    let [first, second] = layouts(good).try_into().map_err(|_| "two editions".to_string())?;
    let day = 9_000;
    for days in [[day, 2 * day], [0, day]] {
        for (edition, around) in (0..=2).flat_map(|edition| (0..5).map(move |around| (edition, around))) {
            for (minutes, last) in
                [0, 1, 2, 40].into_iter().flat_map(|minutes| [0, 100, DAY].map(|last| (minutes, last)))
            {
                let check_in = day * DAY + around - 2;
                let (check_out, party) = (check_in + minutes, [1, 0, 1]);
                let stops = trip.stops.clone();
                let plan = Plan { check_in, check_out, offsets: [1, 2], class: 2, level: 0, party, stops };
                let change = |case: &mut Case| {
                    case.trip = plan.bytes();
                    case.room = LARGEST_STATEMENT;
                    for (layout, days) in [&first, &second].into_iter().zip(days) {
                        case.tariff[layout.opening..layout.area(0)].copy_from_slice(&opening(days));
                    }
                    case.book = fresh();
                    if edition > 0 {
                        let words =
                            [(0, 1), (1, check_in - last), (LAST_CHECK_OUT, check_in - last), (EDITION, edition)];
                        words.into_iter().for_each(|(place, value)| set_word(&mut case.book, place, value));
                    }
                };
                check_with(run, good, "around the first minute of an edition", change)?;
            }
        }
    }
    Ok(())
}

/// The largest file alone, and with whatever may stand behind it: it has 29,062 bytes, and of a longer one 30,088 decide.
fn behind_the_largest(random: &mut Random, run: &mut Run, good: &Case) -> Result<(), Difference> {
    let largest = largest_file(random);
    assert_eq!(largest.len(), 29_062);
    let mut record = vec![0; 1_026];
    for (length, kind) in [(1_024, 9), (1_024, 2), (1_025, 2), (6, 9), (11, 2), (1, 2)] {
        set(&mut record, 0, &LENGTHS, length);
        set(&mut record, 0, &KINDS, kind);
        for more in [0, 1, 3, 4, 8, 12, 13, 1_025, 1_026, 1_027, 3_000] {
            let mut behind = record.clone();
            behind.resize(more, 7);
            let change = |case: &mut Case| case.tariff = [&largest[..], &behind].concat();
            check_with(run, good, "behind the largest file", change)?;
        }
    }
    for less in [1, 2, 13, 14_000, 14_523, 14_524, 14_531] {
        let change = |case: &mut Case| case.tariff = largest[..largest.len() - less].to_vec();
        check_with(run, good, "the largest file, cut", change)?;
    }
    Ok(())
}
