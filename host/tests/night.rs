//! `c/expected.txt` is what the model makes of the sample, in the words of `c/night.c`.

use milecopper_host::maker::bytes_of;
use milecopper_host::model::book::BOOK_BYTES;
use milecopper_host::model::caps::{CapClass, Cut};
use milecopper_host::model::record::record_at;
use milecopper_host::model::statement::{ChargeRecord, LARGEST_STATEMENT};
use milecopper_host::model::trip::Trip;
use milecopper_host::model::{post, quote};

fn euro(cents: u64) -> String {
    format!("{}.{:02} euro", cents / 100, cents % 100)
}

/// What is said of a person's cut.
fn less(cut: &Cut) -> String {
    let Some((area, class)) = cut.cap else { return String::new() };
    let cap = match class {
        CapClass::SecondClass => "the second-class cap",
        CapClass::AllClasses => "the all-classes cap",
    };
    format!(" ({} less by {cap} of area {area})", euro(cut.reduction))
}

/// The sentence about an accepted trip or one of its parts; `which` says whose.
fn accepted(which: &str, trip: &Trip, record: &ChargeRecord) -> String {
    let ChargeRecord { area, km, minutes, charges, cuts, .. } = record;
    let mut text = format!("{which}, {km} km and {minutes} minutes in area {area}, costs {}", euro(record.total()));
    let adults = (1..=trip.adults).map(|i| format!("adult {i}"));
    let children = (1..=trip.children).map(|i| format!("child {i}"));
    let bicycles = (1..=trip.bicycles).map(|i| format!("bicycle {i}"));
    let whom: Vec<String> =
        [String::from("the account holder")].into_iter().chain(adults).chain(children).chain(bicycles).collect();
    assert_eq!(whom.len(), charges.len());
    let less = cuts.iter().map(less).chain((0..trip.bicycles).map(|_| String::new()));
    if charges.len() > 1 {
        let all = charges.iter().zip(whom).zip(less);
        let parts: Vec<String> = all.map(|((&cents, who), less)| format!("{} for {who}{less}", euro(cents))).collect();
        text += &format!(": {}", parts.join(", "));
    } else {
        text.extend(less);
    }
    text + ".\n"
}

#[test]
fn the_night_of_the_sample() {
    let tariff = bytes_of(include_str!("../../samples/tariff.txt")).expect("a tariff");
    let roll = bytes_of(include_str!("../../samples/roll.txt")).expect("a roll");
    let mut book = vec![0; BOOK_BYTES];
    let mut text = String::new();
    let (mut number, mut place, mut opening) = (0, 0, None);
    let (mut yes, mut no, mut cents) = (0, 0, 0);
    while place < roll.len() {
        let trip = &roll[place..place + record_at(&roll, place).expect("a whole record").size()];
        place += trip.len();
        number += 1;
        let mut statement = [0; LARGEST_STATEMENT];
        match quote(&tariff, &book, trip, &mut statement) {
            Ok(written) => {
                assert_eq!(post(&tariff, &mut book, trip, &statement[..written]), Ok(BOOK_BYTES));
                let records = ChargeRecord::read_all(&statement[..written]).expect("charge records");
                if opening != Some(records[0].opening) {
                    text += &format!("A window opens at minute {}.\n", records[0].opening);
                }
                for (part, record) in (1..).zip(&records) {
                    let part = if records.len() > 1 { format!(", part {part}") } else { String::new() };
                    text += &accepted(&format!("Trip {number}{part}"), &Trip::read(trip).expect("a trip"), record);
                    cents += record.total();
                }
                opening = Some(records[0].opening);
                yes += 1;
            }
            Err(refusal) => {
                assert_eq!(refusal.number, 10, "the sample has no other refusal");
                text +=
                    &format!("Trip {number} is refused (10). The trip starts before this account's last trip ended.\n");
                no += 1;
            }
        }
    }
    text += &format!("{yes} trips posted, {no} refused; together {}.\n", euro(cents));
    assert_eq!(text, include_str!("../c/expected.txt"));
}
