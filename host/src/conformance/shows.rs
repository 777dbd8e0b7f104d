//! What a case shows, in words: its function's answer, of a trip that is accepted where it was ridden, which caps are named and what
//! is rare about it, and of a ceiling and of a correction what the differential test counts.

use super::case::Case;
use crate::differential::{correction_met, edition_of, month_met, particulars_met};
use crate::model::month::DUE_BYTES;
use crate::model::page::{FREE, NUMBER_BYTES, PAGE_BYTES, PLACES_OF_EACH, PLACE_BYTES};
use crate::model::record::record_at;
use crate::model::statement::{number_of, ChargeRecord};
use crate::model::tariff::{Area, Level};
use crate::model::trip::Trip;
use crate::model::{read_file, Tariff};
use crate::numbers::number;

/// All of it, each beginning with the function's name but for the library's own.
pub fn shows(case: &Case) -> Vec<String> {
    let name = case.function.strip_prefix("milecopper_").unwrap_or(case.function);
    let mut all = vec![outcome_of(case)];
    all.extend(refused(case));
    all.extend(ridden(case).unwrap_or_default());
    all.extend(told_of_reading(case).unwrap_or_default());
    all.extend(told_of_a_page(case).unwrap_or_default());
    let met = told_of_a_month(case).or_else(|| told_of_a_correction(case)).unwrap_or_default();
    all.extend(met.into_iter().map(|way| format!("{}, {way}", outcome_of(case))));
    all.into_iter().map(|thing| format!("{name}: {thing}")).collect()
}

fn outcome_of(case: &Case) -> String {
    match case.refusal() {
        0 => "accepted".to_string(),
        refusal => format!("refused {refusal}"),
    }
}

fn told_of_a_month(case: &Case) -> Option<Vec<&'static str>> {
    let (ceiling, kept) = (case.number("ceiling")? as u32, case.slice("kept")?);
    let given = [case.slice("tariff")?, case.slice("book")?, case.slice("trip")?];
    Some(month_met(ceiling, kept, given, [case.slice("statement")?.len(), case.slice("due")?.len()]))
}

fn told_of_a_correction(case: &Case) -> Option<Vec<&'static str>> {
    let given = [case.slice("tariff")?, case.slice("roll")?, case.slice("replacement")?];
    let room = [case.slice("statements")?.len(), case.slice("differences")?.len()];
    Some(correction_met(case.number("n")? as u32, given, room))
}

/// Of a page: which place is written, how the numbers in the halves and what is asked for go together, and whether something
/// stands in free places.
fn told_of_a_page(case: &Case) -> Option<Vec<String>> {
    let (page, association, member) = (case.slice("page")?, case.number("association")?, case.number("member")?);
    let outcome = outcome_of(case);
    let then = case.slice_then("page")?.chunks(PLACE_BYTES);
    let written = page.chunks(PLACE_BYTES).zip(then).position(|(before, then)| before != then);
    let mut all: Vec<String> = written.map(|place| format!("{outcome}, in place {place}")).into_iter().collect();
    if page.len() != PAGE_BYTES {
        all.push(format!("{outcome}, with a page of another length"));
        return Some(all);
    }
    let places: Vec<&[u8]> = page.chunks(PLACE_BYTES).collect();
    let numbers: Vec<u64> = places.iter().map(|place| number(&place[..NUMBER_BYTES])).collect();
    let is_littered = |place: &&[u8]| number(&place[..NUMBER_BYTES]) == FREE && place.iter().any(|&byte| byte != 0);
    all.extend(places.iter().any(is_littered).then(|| format!("{outcome}, with something in free places")));
    for (half, own) in numbers.chunks(PLACES_OF_EACH).enumerate() {
        let whose = if half as u64 == association { "own" } else { "other" };
        let asked = own.iter().filter(|&&stored| stored == member).count();
        let doubled = (0..own.len()).rev().find(|&place| own[place] != FREE && own[..place].contains(&own[place]));
        all.push(format!("{outcome}, the member {asked} times in the {whose} half"));
        all.extend(
            doubled.map(|place| format!("{outcome}, a number twice in the {whose} half, at last in place {place}")),
        );
        all.extend((!own.contains(&FREE)).then(|| format!("{outcome}, the {whose} half full")));
    }
    Some(all)
}

/// Of a reading: the kind of the record at the offset, and where that is.
fn told_of_reading(case: &Case) -> Option<Vec<String>> {
    let (statement, at) = (case.slice("statement")?, case.number("at")? as usize);
    let outcome = outcome_of(case);
    let found = statement.get(at..).and_then(|rest| record_at(rest, 0));
    let kind = found.map_or("no record".to_string(), |record| format!("kind {}", record.kind.min(10)));
    let place = match at {
        0 => "the start",
        _ if at < statement.len() => "an offset",
        _ => "the end or behind it",
    };
    Some(vec![format!("{outcome}, {kind}"), format!("{outcome}, at {place}")])
}

/// Of a refusal of the tariff the record that it is of, and of others the rarer ways in which they come about.
fn refused(case: &Case) -> Vec<String> {
    let mut all = Vec::new();
    let refusal = case.refusal();
    if (1..=3).contains(&refusal) {
        let found = case.slice("tariff").and_then(|tariff| record_at(tariff.get(case.answer as u32 as usize..)?, 0));
        let kind = found.map_or("no record".to_string(), |record| format!("a record of kind {}", record.kind.min(10)));
        all.push(format!("refused {refusal} at {kind}"));
    }
    if let [Some(tariff), Some(book), Some(trip)] = ["tariff", "book", "trip"].map(|name| case.slice(name)) {
        // without room for what is due there is none at all
        let lacks_room = case.slice("due").is_some_and(|due| due.len() < DUE_BYTES);
        let room = if lacks_room { 0 } else { case.slice("statement").map_or(0, <[u8]>::len) };
        let met = particulars_met(refusal as u32, tariff, book, trip, room);
        all.extend(met.into_iter().map(|way| format!("refused {refusal}, {way}")));
    }
    all
}

/// Of an accepted trip.
fn ridden(case: &Case) -> Option<Vec<String>> {
    if case.refusal() != 0 {
        return None;
    }
    let (file, bytes) = (case.slice("tariff")?, case.slice("trip")?);
    let trip = Trip::read(bytes)?;
    let records = match case.slice("record") {
        Some(record) => record,
        None => case.slice_then("statement")?.get(..case.answer as usize)?,
    };
    let records = ChargeRecord::read_all(records)?;
    let mut all = around(&trip, &records);
    let Some(book) = case.slice("book") else {
        // The book of a member stands on the page.
        all.extend((records.len() == 2).then(|| "broken in two".to_string()));
        let cuts = records.iter().flat_map(|record| &record.cuts).filter_map(|cut| cut.cap);
        all.extend(cuts.map(|(_, class)| format!("named cap of class {}", number_of(class))));
        return Some(all);
    };
    let (edition, tariff) = edition_of(file, book, bytes)?;
    all.push(format!("edition {edition} of {}", read_file(file).map_or(0, |file| file.editions.len())));
    all.extend(records.iter().flat_map(|record| in_areas(&tariff, &trip, record)));
    all.extend((records.len() == 2).then(|| format!("broken in two, {}", kind_of(&tariff.areas[records[0].area]))));
    Some(all)
}

/// Of the trip itself.
fn around(trip: &Trip, records: &[ChargeRecord]) -> Vec<String> {
    let mut all = Vec::new();
    let offsets = [trip.check_in.offset, trip.check_out.offset];
    if trip.check_in.day >= 25 && trip.check_in.month == 3 && offsets == [1, 2] {
        all.push("the night in which the clock is put on".to_string());
    }
    if trip.check_in.day >= 25 && trip.check_in.month == 10 && offsets == [2, 1] {
        all.push("the night in which the clock is put back".to_string());
    }
    let months = [&trip.check_in, &trip.check_out].map(|stamp| (stamp.year, stamp.month, stamp.day));
    if months[0] != months[1] {
        let sort = if months[0].0 != months[1].0 { "a year" } else { "a day" };
        all.push(format!("over the end of {sort}"));
    }
    if months.iter().any(|&(_, month, day)| (month, day) == (2, 29)) {
        all.push("29 February".to_string());
    }
    let first = &records[0];
    all.extend((first.minutes == 0).then(|| "0 minutes".to_string()));
    all.extend((first.minutes == 1_440).then(|| "1,440 minutes".to_string()));
    all.extend((trip.stops.len() == 32).then(|| "32 stops".to_string()));
    all.extend((trip.stops.len() > 2).then(|| format!("changes, charged in {}", records.len())));
    all.extend((first.charges.len() == 31).then(|| "a party of 31".to_string()));
    all.extend((first.km == 0).then(|| "0 kilometres".to_string()));
    all
}

/// Of a part: its area, class and level, its bicycles and children, and the caps that are named.
fn in_areas(tariff: &Tariff, trip: &Trip, record: &ChargeRecord) -> Vec<String> {
    let area = &tariff.areas[record.area];
    let mut all = vec![format!("class {} in {}", trip.class, place_of(area))];
    all.push(format!("ticket level {} in {}", trip.ticket_level, kind_of(area)));
    for (many, who) in [(record.adults, "adults"), (record.children, "children"), (record.bicycles, "bicycles")] {
        all.extend((many > 0).then(|| format!("{who} in {}", place_of(area))));
    }
    all.extend(area.is_marked_town().then(|| "a marked town".to_string()));
    for (area, class) in record.cuts.iter().filter_map(|cut| cut.cap) {
        all.push(format!("named cap of class {} of {}", number_of(class), place_of(&tariff.areas[area])));
    }
    all.extend((record.total() == 0).then(|| "nothing to pay".to_string()));
    all
}

fn kind_of(area: &Area) -> &'static str {
    if area.is_aachen() {
        "kind 8"
    } else {
        "kind 1"
    }
}

fn place_of(area: &Area) -> String {
    let level = match area.level {
        Level::State => "a state",
        Level::Region => "a region",
        Level::City => "a city",
    };
    format!("{level} of {}", kind_of(area))
}
