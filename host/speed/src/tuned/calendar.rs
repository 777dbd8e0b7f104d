//! Stamps, and their minute numbers in UTC.

use super::numbers::Ranges;
use super::Minutes;

pub const MINUTES_IN_A_DAY: Minutes = 1_440;
/// The last minute that a sound book may hold: 2099-12-31 23:59 UTC.
pub const LAST_MINUTE: Minutes = 52_595_999;

/// Year, month, day, hour, minute and offset: a stamp's seven bytes, with any one behind them.
const STAMP: Ranges = Ranges::of(&[(16, 2000, 2099), (8, 1, 12), (8, 1, 31), (8, 0, 23), (8, 0, 59), (8, 1, 2)]);

/// The minute numbers of check-in and check-out, or nothing where one of them is no stamp: no local date or clock time,
/// another offset than 1 or 2, or a moment before minute 0. Most trips end on the day on which they start, and the date is
/// worked out once.
#[inline(always)]
pub fn minutes_of(check_in: u64, check_out: u64) -> Option<(Minutes, Minutes)> {
    let (check_in, check_out) = (STAMP.above_least(check_in)?, STAMP.above_least(check_out)?);
    let first = start_of_day(check_in as u32)?;
    let last = if check_in as u32 == check_out as u32 { first } else { start_of_day(check_out as u32)? };
    Some((in_utc(first, check_in)?, in_utc(last, check_out)?))
}

/// The first minute in UTC of a date of 2000 to 2099, year, month and day as they stand in four bytes; or nothing where it is none.
#[inline(always)]
pub fn first_minute(date: u32) -> Option<Minutes> {
    // As of midnight with some offset, which is not looked at.
    start_of_day(STAMP.above_least(u64::from(date) | 1 << 48)? as u32)
}

/// The minute number of a stamp whose day starts at this minute by the local clock; nothing where it lies before minute 0.
#[inline(always)]
fn in_utc(day: Minutes, stamp: u64) -> Option<Minutes> {
    (day + minute_of_day(stamp)).checked_sub(60 + 60 * (stamp >> 48 & 0xff) as u32)
}

#[inline(always)]
fn minute_of_day(stamp: u64) -> Minutes {
    60 * (stamp >> 32 & 0xff) as u32 + (stamp >> 40 & 0xff) as u32
}

/// The first minute of a date, whose year, month and day are counted from 2000, 0 and 0; or nothing where the month has
/// no such day.
#[inline(always)]
fn start_of_day(date: u32) -> Option<Minutes> {
    let (year, month, day) = (date & 0xff, date >> 16 & 0xff, date >> 24);
    let (before, days) = MONTHS[(year % 4 * 16 + month) as usize % MONTHS.len()];
    let number = DAYS_IN_FOUR_YEARS * (year / 4) + u32::from(before) + day;
    (day < u32::from(days)).then_some(MINUTES_IN_A_DAY * number)
}

/// In 2000 to 2099 every fourth year is a leap year, the first is one.
const DAYS_IN_FOUR_YEARS: u32 = 4 * 365 + 1;

/// Of the months of four years, each year from a multiple of 16 on: the days before it, and its own.
const MONTHS: [(u16, u16); 64] = {
    let mut months = [(0, 0); 64];
    let (mut year, mut before) = (0, 0);
    while year < 4 {
        let february = if year == 0 { 29 } else { 28 };
        let days = [31, february, 31, 30, 31, 30, 31, 31, 30, 31, 30, 31];
        let mut month = 0;
        while month < 12 {
            months[16 * year + month] = (before, days[month]);
            before += days[month];
            month += 1;
        }
        year += 1;
    }
    months
};
