//! Tests of what the comparison with the model reaches only in part.

use super::calendar::minutes_of;
use super::fare::started_kilometres;
use super::line::{Line, ROOM};
use milecopper_host::model::clock::Stamp;
use milecopper_host::model::record::Fields;

#[test]
fn kilometres_at_every_edge() {
    for k in 0..=1_415 {
        let square = (1_000 * k) * (1_000 * k);
        assert_eq!(started_kilometres(square), k as u32);
        assert_eq!(started_kilometres(square + 1), k as u32 + 1);
        if k > 0 {
            assert_eq!(started_kilometres(square - 1), k as u32);
        }
    }
}

/// All days of a hundred years, those that there are not as well, and all years and clock times around the ranges.
#[test]
fn stamps_as_the_model_counts_them() {
    let dates =
        (1999..=2100).flat_map(|year| (0..=13).flat_map(move |month| (0..=32).map(move |day| (year, month, day))));
    for (year, month, day) in dates {
        stamp_as_the_model(year, month, day, 23, 59, 1 + day % 2);
    }
    for (hour, minute) in (0..=255).flat_map(|hour| (0..=255).map(move |minute| (hour, minute))) {
        stamp_as_the_model(2024, 2, 29, hour, minute, 1 + minute % 2);
    }
    for (hour, minute, offset) in
        (0..4).flat_map(|hour| (0..60).flat_map(move |minute| (0..=255).map(move |offset| (hour, minute, offset))))
    {
        stamp_as_the_model(2000, 1, 1, hour, minute, offset);
        stamp_as_the_model(2099, 12, 31, 20 + hour, minute, offset);
    }
    for (year, day) in (0..=u16::MAX).step_by(3).flat_map(|year| [(year, 1), (year, 130)]) {
        stamp_as_the_model(year, 1, day, 2, 0, 2);
    }
}

fn stamp_as_the_model(year: u16, month: u8, day: u8, hour: u8, minute: u8, offset: u8) {
    let [low, high] = year.to_le_bytes();
    let bytes = [low, high, month, day, hour, minute, offset, 0xff];
    let expected = Stamp::read(&mut Fields::of(&bytes)).minute_number().map(|minute| minute as u32);
    let stamp = u64::from_le_bytes(bytes);
    let first = u64::from_le_bytes([0xd0, 0x07, 1, 1, 1, 0, 1, 0]);
    assert_eq!(minutes_of(stamp, stamp), expected.map(|minute| (minute, minute)));
    assert_eq!(minutes_of(first, stamp), expected.map(|minute| (0, minute)));
    assert_eq!(minutes_of(stamp, first), expected.map(|minute| (minute, 0)));
}

#[test]
fn numbers_in_digits() {
    let large = [999_999, 1_000_000, 1_000_001, 52_595_999, 999_999_999, 1_000_000_000, 7_692_456_690_000];
    for number in (0..100_000).chain(large) {
        let mut room = [b'x'; ROOM];
        let length = Line::start(&mut room).word(b"cents ").number(number).end();
        assert_eq!(room[..length], *format!("cents {number}\n").as_bytes());
    }
}
