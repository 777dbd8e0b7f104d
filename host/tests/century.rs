//! Every day from 2000 to 2099, by the model and by the library: a trip over each midnight takes the minutes that it
//! takes, in the window that it opens, whatever the offsets are; a day that there is not is refused; in the nights in
//! which the clock changes a trip takes the minutes that were ridden; and from a minute the model comes back to its day.

use milecopper_host::differential::{settle_by_the_model, Settle};
use milecopper_host::maker::bytes_of;
use milecopper_host::model::book::BOOK_BYTES;
use milecopper_host::model::clock::Moment;
use milecopper_host::numbers::number;

const TARIFF: &[u8] = include_bytes!("../../samples/tariff.bin");
const REFUSED_8: u64 = 8 << 32;
const REFUSED_9: u64 = 9 << 32;

/// The answer, and the opening and the minutes of the charge record.
fn ride(settle: Settle, from: &str, to: &str) -> (u64, u64, u64) {
    let text = format!("trip {from} to {to} class 2 level 0 adults 0 children 0 bikes 0 stops 0 1");
    let mut statement = [0; 26];
    let answer = settle(TARIFF, &mut [0; BOOK_BYTES], &bytes_of(&text).expect("a trip"), &mut statement);
    (answer, number(&statement[4..8]), number(&statement[11..13]))
}

/// From 23:50 to 00:15; the day that begins is the one of this number.
fn over_midnight(settle: Settle, eve: &str, date: &str, days: u64) {
    for (first, second, minutes) in [(1, 1, 25), (2, 2, 25), (2, 1, 85)] {
        let (from, to) = (format!("{eve}T23:50+{first}:00"), format!("{date}T00:15+{second}:00"));
        let opening = 1_440 * days - 10 - 60 * first;
        assert_eq!(ride(settle, &from, &to), (26, opening, minutes), "from {from} to {to}");
    }
    let back = ride(settle, &format!("{eve}T23:50+1:00"), &format!("{date}T00:15+2:00"));
    assert_eq!(back.0, REFUSED_9, "35 minutes back at the midnight before {date}");
}

/// On the last Sundays of March and October the clock changes at 01:00 UTC.
fn clock_change(settle: Settle, date: &str, days: u64, is_to_summer: bool) {
    let (from, to) = if is_to_summer { ("01:50+1:00", "03:10+2:00") } else { ("02:50+2:00", "02:10+1:00") };
    let (from, to) = (format!("{date}T{from}"), format!("{date}T{to}"));
    assert_eq!(ride(settle, &from, &to), (26, 1_440 * days + 50, 20), "from {from} to {to}");
}

/// The days in order, with those that there are not in between.
fn each_day(settle: Settle) {
    let (mut days, mut changes) = (0, 0);
    let mut eve: Option<String> = None;
    for year in 2000..=2099 {
        // From 2000 to 2099 every fourth year is a leap year.
        let february = if year % 4 == 0 { 29 } else { 28 };
        for (month, length) in (1..).zip([31, february, 31, 30, 31, 30, 31, 31, 30, 31, 30, 31]) {
            for day in 1..=length {
                let date = format!("{year}-{month}-{day}");
                if let Some(eve) = eve {
                    over_midnight(settle, &eve, &date, days);
                }
                let noon = Moment::of(1_440 * days + 12 * 60 + 34).to_string();
                assert_eq!(noon, format!("{year}-{month:02}-{day:02}T12:34Z"));
                // 2000-01-02 was a Sunday.
                if (month == 3 || month == 10) && day > length - 7 && days % 7 == 1 {
                    clock_change(settle, &date, days, month == 3);
                    changes += 1;
                }
                eve = Some(date);
                days += 1;
            }
            for (day, offset) in [(0, 1), (0, 2), (length + 1, 1), (length + 1, 2)] {
                let stamp = format!("{year}-{month}-{day}T12:00+{offset}:00");
                assert_eq!(ride(settle, &stamp, &stamp).0, REFUSED_8, "{stamp}");
            }
        }
    }
    assert_eq!((days, changes), (36_525, 200));
}

#[test]
fn by_the_model() {
    each_day(settle_by_the_model);
}

#[cfg(feature = "library")]
#[test]
fn by_the_library() {
    each_day(milecopper_host::library::settle_to_number);
}
