//! `c/expected-correct.txt` is what the model makes of the sample's corrections, in the words of `c/correct.c`; and the longest rolls, by
//! the model and by the library.

use milecopper_host::differential::{Functions, MODEL};
use milecopper_host::maker::bytes_of;
use milecopper_host::model::correction::{DIFFERENCES_BYTES, PAYERS};
use milecopper_host::model::roll::{records_of, MOST_RECORDS};
use milecopper_host::model::statement::{ChargeRecord, LARGEST_STATEMENT};
use milecopper_host::model::Refusal;

/// What a correction comes to: the corrected roll's statements, and the differences.
type Corrected = Result<(Vec<u8>, Vec<i64>), Refusal>;

fn corrected(functions: Functions, tariff: &[u8], roll: &[u8], n: u32, replacement: &[u8], room: usize) -> Corrected {
    let (mut statements, mut differences) = (vec![0; room], [0; DIFFERENCES_BYTES]);
    let number = (functions.correct)(tariff, roll, n, replacement, &mut statements, &mut differences);
    if number >> 32 != 0 {
        return Err(Refusal { number: (number >> 32) as u32, place: number as u32 });
    }
    statements.truncate(number as usize);
    let eight = differences.chunks(8).map(|bytes| i64::from_le_bytes(bytes.try_into().expect("8 bytes")));
    Ok((statements, eight.collect()))
}

fn charged(statements: &[u8]) -> i64 {
    let records = ChargeRecord::read_all(statements).expect("charge records");
    records.iter().map(|record| record.total() as i64).sum()
}

fn sample() -> (Vec<u8>, Vec<u8>) {
    let tariff = bytes_of(include_str!("../../samples/tariff.txt")).expect("a tariff");
    let roll = bytes_of(include_str!("../../samples/roll.txt")).expect("a roll");
    (tariff, roll)
}

fn money(cents: i64) -> String {
    let size = cents.abs();
    format!("{}{}.{:02} euro", if cents < 0 { "-" } else { "" }, size / 100, size % 100)
}

fn payer(place: usize) -> String {
    match place {
        0 => "account holder".to_string(),
        1..=10 => format!("adult {place}"),
        11..=20 => format!("child {}", place - 10),
        _ => format!("bicycle {}", place - 20),
    }
}

#[test]
fn the_corrections_of_the_sample() {
    let (tariff, roll) = sample();
    let mut text = String::new();
    for (n, time) in [(6, Some([4, 20])), (2, Some([22, 40])), (13, None), (15, None)] {
        let own = records_of(&roll).get(n - 1).copied().flatten().unwrap_or(&[]);
        let mut trip = if time.is_some() { own.to_vec() } else { Vec::new() };
        text += &match time {
            Some([hour, minute]) => {
                trip[15..17].copy_from_slice(&[hour, minute]);
                format!("Trip {n} checked out at {hour:02}:{minute:02}: ")
            }
            None => format!("Trip {n} cancelled: "),
        };
        let by = |replacement: &[u8]| corrected(MODEL, &tariff, &roll, n as u32, replacement, 14 * LARGEST_STATEMENT);
        text += &match (by(own), by(&trip)) {
            (Ok((before, none)), Ok((after, differences))) => {
                assert_eq!(none, [0; PAYERS]);
                let some = differences.iter().enumerate().filter(|(_, &difference)| difference != 0);
                let some = some.map(|(place, &difference)| format!("  {}: {}\n", payer(place), money(difference)));
                let (before, after) = (charged(&before), charged(&after));
                assert_eq!(before + differences.iter().sum::<i64>(), after);
                format!("{} before, {} now.\n{}", money(before), money(after), some.collect::<String>())
            }
            (_, Err(Refusal { number: 23, place: 0 })) => {
                "refused (23). There is no trip with this number in the list that is corrected, or the list is damaged there.\n"
                    .to_string()
            }
            other => panic!("{other:?}"),
        };
    }
    assert_eq!(text, include_str!("../c/expected-correct.txt"));
}

/// Records of 4 bytes, of a kind that is refused, and behind so many of them the sample's first trip.
fn many_and_a_trip(many: usize) -> Vec<u8> {
    let (_, roll) = sample();
    let trip = records_of(&roll)[0].expect("a trip");
    [[2, 0, 3, 0].repeat(many), trip.to_vec()].concat()
}

/// The 65,535th record is a record, and the 65,536th is none.
fn ends_after_the_most(functions: Functions) {
    let (tariff, _) = sample();
    let refused = Err(Refusal { number: 23, place: 0 });
    let correct = |roll: &[u8], n: usize| corrected(functions, &tariff, roll, n as u32, &[], LARGEST_STATEMENT);
    let just = many_and_a_trip(MOST_RECORDS - 1);
    let (statements, differences) = correct(&just, MOST_RECORDS).expect("the last record");
    assert_eq!((statements.len(), differences[0]), (0, -221));
    assert_eq!(correct(&just, MOST_RECORDS + 1), refused);
    let more = many_and_a_trip(MOST_RECORDS);
    assert_eq!(correct(&more, MOST_RECORDS), Ok((Vec::new(), vec![0; PAYERS])));
    assert_eq!(correct(&more, MOST_RECORDS + 1), refused);
}

#[test]
fn a_roll_ends_after_the_most_by_the_model() {
    ends_after_the_most(MODEL);
}

#[cfg(feature = "library")]
mod by_the_library {
    use super::*;
    use milecopper_host::differential::trips::{stamp, DAY};
    use milecopper_host::library::LIBRARY;
    use std::time::Instant;

    #[test]
    fn a_roll_ends_after_the_most() {
        ends_after_the_most(LIBRARY);
    }

    /// A trip of the sample with an adult, a child and a bicycle, every 10 minutes from 2027 on: 144 in each window, over a year.
    fn year() -> Vec<u8> {
        let (_, roll) = sample();
        let mut trip = records_of(&roll)[0].expect("a trip").to_vec();
        trip[20..23].copy_from_slice(&[1, 1, 1]);
        let at = |place: usize| {
            let check_in = 9_862 * DAY + 10 * place as u64;
            trip[4..11].copy_from_slice(&stamp(check_in, 1));
            trip[11..18].copy_from_slice(&stamp(check_in + 8, 1));
            trip.clone()
        };
        (0..MOST_RECORDS).flat_map(at).collect()
    }

    /// The first of 65,535 trips cancelled, so that each window after it opens 10 minutes later. `--nocapture` shows the time.
    #[test]
    fn the_most_trips() {
        let (tariff, roll) = (sample().0, year());
        let room = MOST_RECORDS * LARGEST_STATEMENT;
        let (clock, by_the_library) = (Instant::now(), corrected(LIBRARY, &tariff, &roll, 1, &[], room));
        println!("the most trips corrected in {:.2} seconds", clock.elapsed().as_secs_f64());
        let (statements, differences) = by_the_library.expect("a correction");
        assert_eq!(statements.len(), (MOST_RECORDS - 1) * 50);
        let by_the_model = corrected(MODEL, &tariff, &roll, 1, &[], room).expect("a correction");
        assert!(statements == by_the_model.0 && differences == by_the_model.1, "not what the model makes of them");
        let first = records_of(&roll)[0].expect("a trip");
        let (own, none) = corrected(LIBRARY, &tariff, &roll, 1, first, room).expect("a correction");
        assert_eq!((own.len(), none), (MOST_RECORDS * 50, vec![0; PAYERS]));
        assert_eq!(charged(&own) + differences.iter().sum::<i64>(), charged(&statements));
    }
}
