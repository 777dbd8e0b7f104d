//! Stamps and minute numbers. A stamp is a local date and clock time with its offset, the hours ahead of UTC; minute
//! numbers count in UTC, from 2000-01-01 00:00 UTC.

use super::record::Fields;
use super::Minutes;
use std::fmt;

pub const MINUTES_IN_A_DAY: Minutes = 1_440;
pub const FIRST_YEAR: u64 = 2000;
pub const LAST_YEAR: u64 = 2099;
/// The largest minute number that a sound book may hold: 2099-12-31 23:59 UTC.
pub const LAST_MINUTE: Minutes = 52_595_999;
pub const MINUTES_IN_AN_HOUR: Minutes = 60;

/// Year in 2 bytes, then month and day in one each.
#[derive(Clone, Debug, PartialEq, Eq)]
pub struct Date {
    pub year: u64,
    pub month: u64,
    pub day: u64,
}

impl Date {
    pub fn read(fields: &mut Fields) -> Date {
        Date { year: fields.next(2), month: fields.next(1), day: fields.next(1) }
    }

    /// Whether it is a date 2000..2099.
    pub fn is_date(&self) -> bool {
        (FIRST_YEAR..=LAST_YEAR).contains(&self.year)
            && (1..=12).contains(&self.month)
            && (1..=days_in_month(self.year, self.month)).contains(&self.day)
    }

    /// The number of its first minute in UTC, or nothing where this is no date.
    pub fn first_minute(&self) -> Option<Minutes> {
        self.is_date().then(|| self.days_before() * MINUTES_IN_A_DAY)
    }

    /// The days from 2000-01-01 to this date.
    fn days_before(&self) -> u64 {
        let earlier_years: u64 = (FIRST_YEAR..self.year).map(days_in_year).sum();
        let earlier_months: u64 = (1..self.month).map(|month| days_in_month(self.year, month)).sum();
        earlier_years + earlier_months + self.day - 1
    }
}

/// Year in 2 bytes, then month, day, hour, minute and offset in one each.
#[derive(Clone, Debug, PartialEq, Eq)]
pub struct Stamp {
    pub year: u64,
    pub month: u64,
    pub day: u64,
    pub hour: u64,
    pub minute: u64,
    /// The hours that the local clock is ahead of UTC.
    pub offset: u64,
}

impl Stamp {
    pub fn read(fields: &mut Fields) -> Stamp {
        Stamp {
            year: fields.next(2),
            month: fields.next(1),
            day: fields.next(1),
            hour: fields.next(1),
            minute: fields.next(1),
            offset: fields.next(1),
        }
    }

    /// The minute number, or nothing where this is no stamp: no local date 2000..2099 or no clock time 00:00..23:59,
    /// another offset than 1 or 2, or a moment before minute 0.
    pub fn minute_number(&self) -> Option<Minutes> {
        if !(self.is_date() && self.is_clock_time() && self.is_offset()) {
            return None;
        }
        self.local_minute().checked_sub(self.offset * MINUTES_IN_AN_HOUR)
    }

    /// The minutes from 2000-01-01 00:00 to this date and clock time, both of the local clock.
    fn local_minute(&self) -> Minutes {
        self.date().days_before() * MINUTES_IN_A_DAY + self.hour * MINUTES_IN_AN_HOUR + self.minute
    }

    fn date(&self) -> Date {
        Date { year: self.year, month: self.month, day: self.day }
    }

    pub fn is_date(&self) -> bool {
        self.date().is_date()
    }

    pub fn is_clock_time(&self) -> bool {
        self.hour <= 23 && self.minute <= 59
    }

    /// Central European winter time is 1 hour ahead of UTC, summer time 2. Which of them the date has is not looked at.
    pub fn is_offset(&self) -> bool {
        (1..=2).contains(&self.offset)
    }
}

/// A date and a clock time of UTC.
#[derive(Clone, Copy, Debug, PartialEq, Eq)]
pub struct Moment {
    pub year: u64,
    pub month: u64,
    pub day: u64,
    pub hour: u64,
    pub minute: u64,
}

impl Moment {
    /// That of a minute number: the years that have passed are taken off its days, then the months.
    pub fn of(minute: Minutes) -> Moment {
        let (mut days, of_the_day) = (minute / MINUTES_IN_A_DAY, minute % MINUTES_IN_A_DAY);
        let (mut year, mut month) = (FIRST_YEAR, 1);
        while days >= days_in_year(year) {
            days -= days_in_year(year);
            year += 1;
        }
        while days >= days_in_month(year, month) {
            days -= days_in_month(year, month);
            month += 1;
        }
        let (hour, minute) = (of_the_day / MINUTES_IN_AN_HOUR, of_the_day % MINUTES_IN_AN_HOUR);
        Moment { year, month, day: days + 1, hour, minute }
    }
}

/// Like 2026-10-31T22:50Z.
impl fmt::Display for Moment {
    fn fmt(&self, out: &mut fmt::Formatter) -> fmt::Result {
        let Moment { year, month, day, hour, minute } = self;
        write!(out, "{year:04}-{month:02}-{day:02}T{hour:02}:{minute:02}Z")
    }
}

fn is_leap_year(year: u64) -> bool {
    year.is_multiple_of(4) && (!year.is_multiple_of(100) || year.is_multiple_of(400))
}

pub fn days_in_month(year: u64, month: u64) -> u64 {
    match month {
        2 if is_leap_year(year) => 29,
        2 => 28,
        4 | 6 | 9 | 11 => 30,
        _ => 31,
    }
}

fn days_in_year(year: u64) -> u64 {
    (1..=12).map(|month| days_in_month(year, month)).sum()
}
