//! A time in one word, as ISO 8601 has it: 2026-10-25T02:50+02:00; and a date: 2026-06-01.

use super::words::{fitting, whole, with_commas, Words};
use crate::model::clock::{days_in_month, Date, Stamp, FIRST_YEAR, LAST_YEAR, MINUTES_IN_A_DAY};
use crate::model::Minutes;
use crate::numbers::put;

const MONTHS: [&str; 12] = [
    "January",
    "February",
    "March",
    "April",
    "May",
    "June",
    "July",
    "August",
    "September",
    "October",
    "November",
    "December",
];

/// The bytes of the next word, a date, a clock time and the whole hours that it is ahead of UTC; and its minute number,
/// where it has one. Where values are checked, `what` is told of each mistake.
pub fn stamp(words: &mut Words, what: &str) -> Result<(Vec<u8>, Option<Minutes>), String> {
    let word = words.next("the time")?;
    let stamp = parse(word, words.checks())?;
    if words.checks() {
        words.mistakes.extend(mistakes_of(&stamp).into_iter().map(|text| format!("{what} {word}: {text}")));
    }
    let mut bytes = Vec::new();
    put(&mut bytes, 2, stamp.year);
    for part in [stamp.month, stamp.day, stamp.hour, stamp.minute, stamp.offset] {
        put(&mut bytes, 1, part);
    }
    Ok((bytes, stamp.minute_number().filter(|_| words.checks())))
}

/// The bytes of the next word, a date. Where values are checked, each mistake is told.
pub fn date(words: &mut Words) -> Result<Vec<u8>, String> {
    let word = words.next("the edition's date")?;
    let date = parse_date(word, words.checks())?;
    if words.checks() {
        words.mistakes.extend(mistakes_of_date(&date).into_iter().map(|text| format!("edition {word}: {text}")));
    }
    let mut bytes = Vec::new();
    put(&mut bytes, 2, date.year);
    put(&mut bytes, 1, date.month);
    put(&mut bytes, 1, date.day);
    Ok(bytes)
}

/// The number that a part of a time writes. Where values are checked, the largest stands for any that is too large.
fn part(what: &str, text: &str, width: usize, checks: bool) -> Result<u64, String> {
    match checks {
        true => whole(what, text).map(|value| value.min((1 << (8 * width)) - 1)),
        false => fitting(what, text, width),
    }
}

/// Which numbers the date has, whatever they are.
fn parse_date(word: &str, checks: bool) -> Result<Date, String> {
    let date = parts("the date", word, '-', 3)?;
    Ok(Date {
        year: part("the year", date[0], 2, checks)?,
        month: part("the month", date[1], 1, checks)?,
        day: part("the day", date[2], 1, checks)?,
    })
}

/// Which numbers the word has, whatever they are.
fn parse(word: &str, checks: bool) -> Result<Stamp, String> {
    let told = || format!("the time '{word}' is not of the form 2026-10-25T02:50+02:00, in whole hours ahead of UTC");
    let (date, rest) = word.split_once('T').ok_or_else(told)?;
    let (time, offset) = rest.split_once('+').ok_or_else(told)?;
    let hours = offset.strip_suffix(":00").ok_or_else(told)?;
    let Date { year, month, day } = parse_date(date, checks)?;
    let time = parts("the clock time", time, ':', 2)?;
    let hour = part("the hour", time[0], 1, checks)?;
    let minute = part("the minute", time[1], 1, checks)?;
    Ok(Stamp { year, month, day, hour, minute, offset: part("the offset", hours, 1, checks)? })
}

fn parts<'a>(what: &str, word: &'a str, between: char, many: usize) -> Result<Vec<&'a str>, String> {
    let parts: Vec<&str> = word.split(between).collect();
    if parts.len() == many {
        Ok(parts)
    } else {
        Err(format!("{what} '{word}' does not have {many} parts"))
    }
}

fn mistakes_of_date(&Date { year, month, day }: &Date) -> Vec<String> {
    let mut mistakes = Vec::new();
    if !(FIRST_YEAR..=LAST_YEAR).contains(&year) {
        mistakes.push(format!("the year is {FIRST_YEAR} to {LAST_YEAR}"));
    }
    if !(1..=12).contains(&month) {
        mistakes.push("the month is 1 to 12".to_string());
    } else if !(1..=days_in_month(year, month)).contains(&day) {
        let name = MONTHS[month as usize - 1];
        mistakes.push(format!("{name} {year} has {} days, and no day {day}", days_in_month(year, month)));
    }
    mistakes
}

fn mistakes_of(stamp: &Stamp) -> Vec<String> {
    let Stamp { year, month, day, hour, minute, offset } = *stamp;
    let mut mistakes = mistakes_of_date(&Date { year, month, day });
    if hour == 24 && minute == 0 {
        mistakes.push("24:00 is 00:00 of the next day".to_string());
    } else if !stamp.is_clock_time() {
        mistakes.push("the clock goes from 00:00 to 23:59".to_string());
    }
    if !stamp.is_offset() {
        mistakes.push(format!("+{offset:02}:00 is neither winter time, +01:00, nor summer time, +02:00"));
    }
    if mistakes.is_empty() && stamp.minute_number().is_none() {
        mistakes.push(format!("this is before {FIRST_YEAR} began in UTC"));
    }
    mistakes
}

/// What is wrong with how long a trip lasts, if both its times have a minute number.
pub fn duration(check_in: Option<Minutes>, check_out: Option<Minutes>) -> Option<String> {
    let (from, to) = (check_in?, check_out?);
    if to < from {
        Some(format!("the trip ends {} minutes before it begins", with_commas(from - to)))
    } else if to - from > MINUTES_IN_A_DAY {
        let (lasts, most) = (with_commas(to - from), with_commas(MINUTES_IN_A_DAY));
        Some(format!("the trip lasts {lasts} minutes, and {most} are the most"))
    } else {
        None
    }
}
