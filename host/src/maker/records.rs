//! The lines that give bytes: `edition`, `area`, `aachen`, `factor`, `stop`, `trip`, `record`, `bytes` and `repeat`; and `tariff`, which names one.

use super::order::Order;
use super::stamps::{date, duration, stamp};
use super::words::{hexadecimal, whole, Words};
use super::{Fault, StopsOf};
use crate::model::record::{KIND_AACHEN_AREA, KIND_AREA, KIND_EDITION, KIND_FACTOR, KIND_STOP, KIND_TRIP};
use crate::model::tariff::{
    BASE_PRICES, FACTORS, METRES, MONEY, MOST_AREAS, NO_DAY_CAP, PERCENTAGES, PRICES_PER_KM, VALIDITIES,
};
use crate::model::trip::{CARRIED, CLASSES, STOPS_IN_A_TRIP, TICKET_LEVELS};
use crate::numbers::put;
use std::ops::RangeInclusive;

/// The most that `repeat` repeats.
const MOST_TIMES: u64 = 1_000_000;

/// Numbers of areas, and of marks, levels and town marks of areas.
const AREAS: RangeInclusive<u64> = 0..=MOST_AREAS as u64 - 1;
const MARKS: RangeInclusive<u64> = 0..=1;
const LEVELS: RangeInclusive<u64> = 0..=2;
const TOWNS: RangeInclusive<u64> = 0..=2;

/// The bytes gathered so far, and what waits for the next line.
///
/// By default values are not checked, so that wrong ones can be written.
#[derive(Default)]
pub struct Records<'a> {
    /// Where values are checked: the lines so far, and how many stops a tariff of some name has in its larger edition.
    checked: Option<(Order, StopsOf<'a>)>,
    bytes: Vec<u8>,
    /// The whole records among the lines taken, a repeated one once for each time.
    whole_records: u64,
    /// The lines taken that gave bytes.
    lines: usize,
    /// A `repeat` that waits for its record: its line and how many times.
    waiting: Option<(usize, u64)>,
}

/// What a line gives.
enum Content<'a> {
    Nothing,
    Repeat(u64),
    Tariff(&'a str),
    /// A whole record has its kind.
    Bytes {
        bytes: Vec<u8>,
        kind: Option<u64>,
    },
}

impl<'a> Records<'a> {
    pub fn checked(stops_of: StopsOf<'a>) -> Records<'a> {
        Records { checked: Some((Order::default(), stops_of)), ..Records::default() }
    }

    /// Takes one line without its comment; the first of its mistakes is told.
    pub fn take(&mut self, line: usize, text: &str) -> Result<(), Fault> {
        match self.mistakes_of(line, text).into_iter().next() {
            None => Ok(()),
            Some(text) => Err(Fault { line, text }),
        }
    }

    /// Takes one line without its comment, and tells all of its mistakes.
    pub fn mistakes_of(&mut self, line: usize, text: &str) -> Vec<String> {
        let mut words = if self.checked.is_some() { Words::checked(text) } else { Words::of(text) };
        let content = content_of(&mut words);
        let mut mistakes = words.mistakes;
        match content {
            Err(text) => {
                mistakes.push(text);
                // The line that it was to repeat is this one.
                self.waiting = None;
            }
            Ok(Content::Nothing) => (),
            Ok(Content::Repeat(_)) if self.waiting.is_some() => mistakes.push("a repeat after a repeat".to_string()),
            Ok(Content::Repeat(times)) => self.waiting = Some((line, times)),
            Ok(Content::Tariff(name)) => mistakes.extend(self.name_tariff(name)),
            Ok(Content::Bytes { bytes, kind }) => mistakes.extend(self.put(&bytes, kind)),
        }
        mistakes
    }

    /// The trips are under the tariff of this name.
    fn name_tariff(&mut self, name: &str) -> Option<String> {
        let (order, stops_of) = self.checked.as_mut()?;
        match stops_of(name) {
            Ok(stops) => {
                order.known_stops = Some(stops);
                None
            }
            Err(text) => {
                // That is told once, and not at each stop again.
                order.known_stops = Some(usize::MAX);
                Some(text)
            }
        }
    }

    /// The bytes as often as they are due, with the mistakes of the first that has any.
    fn put(&mut self, bytes: &[u8], kind: Option<u64>) -> Vec<String> {
        let times = self.waiting.take().map_or(1, |(_, times)| times);
        let mut mistakes = Vec::new();
        for _ in 0..times {
            self.bytes.extend_from_slice(bytes);
            if let (Some((order, _)), Some(kind), true) = (&mut self.checked, kind, mistakes.is_empty()) {
                mistakes = order.follow(kind, &bytes[4..]);
            }
        }
        self.whole_records += if kind.is_some() { times } else { 0 };
        self.lines += 1;
        mistakes
    }

    pub fn whole_records(&self) -> u64 {
        self.whole_records
    }

    pub fn is_without_lines(&self) -> bool {
        self.lines == 0
    }

    /// The bytes; a `repeat` may not be left waiting.
    pub fn finish(self) -> Result<Vec<u8>, Fault> {
        match self.waiting {
            None => Ok(self.bytes),
            Some((line, _)) => Err(Fault { line, text: "a repeat without a record after it".to_string() }),
        }
    }

    /// What is still due after the last line.
    pub fn mistakes_at_the_end(&self) -> Vec<String> {
        self.checked.iter().flat_map(|(order, _)| order.end()).collect()
    }
}

fn content_of<'a>(words: &mut Words<'a>) -> Result<Content<'a>, String> {
    let Ok(name) = words.next("") else {
        return Ok(Content::Nothing);
    };
    let content = match name {
        "edition" => record(KIND_EDITION, date(words)?)?,
        "area" => record(KIND_AREA, area_body(words)?)?,
        "aachen" => record(KIND_AACHEN_AREA, aachen_body(words)?)?,
        "factor" => record(KIND_FACTOR, factor_body(words)?)?,
        "stop" => record(KIND_STOP, stop_body(words)?)?,
        "trip" => record(KIND_TRIP, trip_body(words)?)?,
        "record" | "bytes" if words.checks() => {
            return Err(format!("'{name}' writes any bytes, which only 'make_bytes --raw' does"));
        }
        "record" => record(words.number("the kind", 2)?, hexadecimal(&words.all())?)?,
        "bytes" => Content::Bytes { bytes: hexadecimal(&words.all())?, kind: None },
        "repeat" => Content::Repeat(times(words)?),
        "tariff" => Content::Tariff(words.next("the tariff's file")?),
        _ => return Err(format!("'{name}' is no sort of line")),
    };
    words.end()?;
    Ok(content)
}

/// A whole record: length, kind, body.
fn record<'a>(kind: u64, body: Vec<u8>) -> Result<Content<'a>, String> {
    let length = 2 + body.len() as u64;
    if length > 65_535 {
        return Err(format!("a body of {} bytes is too long for a record", body.len()));
    }
    let mut bytes = Vec::new();
    put(&mut bytes, 2, length);
    put(&mut bytes, 2, kind);
    bytes.extend(body);
    Ok(Content::Bytes { bytes, kind: Some(kind) })
}

fn times(words: &mut Words) -> Result<u64, String> {
    let word = words.next("how many times")?;
    let times = whole("how many times", word)?;
    if times > MOST_TIMES {
        return Err(format!("{times} times are too many"));
    }
    Ok(times)
}

fn area_body(words: &mut Words) -> Result<Vec<u8>, String> {
    let mut body = Vec::new();
    put(&mut body, 1, area_level(words)?);
    put(&mut body, 1, words.field("parent", 1, &AREAS)?);
    put(&mut body, 2, words.field("base", 2, &BASE_PRICES)?);
    put(&mut body, 2, words.field("km", 2, &PRICES_PER_KM)?);
    put(&mut body, 2, words.field("valid", 2, &VALIDITIES)?);
    put(&mut body, 1, words.field("first", 1, &PERCENTAGES)?);
    put(&mut body, 1, words.field("child", 1, &PERCENTAGES)?);
    let (sort, fields) = trip_cap(words)?;
    put(&mut body, 1, sort);
    for field in fields {
        put(&mut body, 2, field);
    }
    put(&mut body, 2, day_cap(words)?);
    put(&mut body, 2, words.field("bike", 2, &MONEY)?);
    Ok(body)
}

/// That of an area, and what only kind 8 has.
fn aachen_body(words: &mut Words) -> Result<Vec<u8>, String> {
    let mut body = area_body(words)?;
    let (is_city, cap_sort) = (body[0] == 2, u64::from(body[10]));
    let (sort, tickets) = child_tickets(words)?;
    if words.checks() && sort != cap_sort {
        words.mistakes.push("the child tickets are not of the trip cap's sort: none, flat or levels".to_string());
    }
    for ticket in tickets {
        put(&mut body, 2, ticket);
    }
    put(&mut body, 2, words.field("trip", 2, &MONEY)?);
    let mark = town(words)?;
    if words.checks() && mark != 0 && !is_city {
        words.mistakes.push("only a city is a town that drops something".to_string());
    }
    put(&mut body, 1, mark);
    Ok(body)
}

fn area_level(words: &mut Words) -> Result<u64, String> {
    match words.next("the area's level")? {
        "state" => Ok(0),
        "region" => Ok(1),
        "city" => Ok(2),
        word if words.checks() && whole("", word).is_err() => {
            words.mistakes.push(format!("'{word}' is no level of an area: state, region or city"));
            Ok(0)
        }
        word => words.value_in("the area's level", word, 1, &LEVELS),
    }
}

/// The sort of the trip cap and its five fields.
fn trip_cap(words: &mut Words) -> Result<(u64, [u64; 5]), String> {
    words.fixed("cap")?;
    match words.next("the sort of trip cap")? {
        "none" => Ok((0, [0; 5])),
        "flat" => {
            let amount = words.number_in("the amount", 2, &MONEY)?;
            Ok((1, [amount, words.number_in("the minutes", 2, &VALIDITIES)?, 0, 0, 0]))
        }
        "levels" => Ok((2, amounts_by_level(words)?)),
        word => Err(format!("'{word}' is no sort of trip cap: none, flat or levels")),
    }
}

/// The sort of trip cap that they go by, and their five fields.
fn child_tickets(words: &mut Words) -> Result<(u64, [u64; 5]), String> {
    words.fixed("tickets")?;
    match words.next("the sort of child tickets")? {
        "none" => Ok((0, [0; 5])),
        "flat" => Ok((1, [words.number_in("the child ticket", 2, &MONEY)?, 0, 0, 0, 0])),
        "levels" => Ok((2, amounts_by_level(words)?)),
        word => Err(format!("'{word}' is no sort of child tickets: none, flat or levels")),
    }
}

fn amounts_by_level(words: &mut Words) -> Result<[u64; 5], String> {
    let mut amounts = [0; 5];
    for (amount, level) in amounts.iter_mut().zip(["K", "A", "B", "C", "D"]) {
        *amount = words.number_in(&format!("the amount of level {level}"), 2, &MONEY)?;
    }
    Ok(amounts)
}

/// What the town drops, as the mark's number.
fn town(words: &mut Words) -> Result<u64, String> {
    words.fixed("town")?;
    match words.next("what the town drops")? {
        "none" => Ok(0),
        "base" => Ok(1),
        "km" => Ok(2),
        word if words.checks() && whole("", word).is_err() => {
            words.mistakes.push(format!("'{word}' is nothing that a town drops: none, base or km"));
            Ok(0)
        }
        word => words.value_in("what the town drops", word, 1, &TOWNS),
    }
}

fn day_cap(words: &mut Words) -> Result<u64, String> {
    words.fixed("day")?;
    match words.next("the day cap")? {
        "none" => Ok(NO_DAY_CAP),
        word => words.value_in("the day cap", word, 2, &MONEY),
    }
}

fn factor_body(words: &mut Words) -> Result<Vec<u8>, String> {
    let mut body = Vec::new();
    put(&mut body, 1, words.number_in("the factor", 1, &FACTORS)?);
    put(&mut body, 1, words.field("mark", 1, &MARKS)?);
    Ok(body)
}

fn stop_body(words: &mut Words) -> Result<Vec<u8>, String> {
    let mut body = Vec::new();
    put(&mut body, 1, words.number_in("the stop's area", 1, &AREAS)?);
    put(&mut body, 4, words.number_in("x", 4, &METRES)?);
    put(&mut body, 4, words.number_in("y", 4, &METRES)?);
    Ok(body)
}

fn trip_body(words: &mut Words) -> Result<Vec<u8>, String> {
    let carried = *CARRIED.start() as u64..=*CARRIED.end() as u64;
    let (mut body, check_in) = stamp(words, "check-in")?;
    words.fixed("to")?;
    let (bytes, check_out) = stamp(words, "check-out")?;
    body.extend(bytes);
    words.mistakes.extend(duration(check_in, check_out));
    put(&mut body, 1, words.field("class", 1, &CLASSES)?);
    put(&mut body, 1, ticket_level(words)?);
    put(&mut body, 1, words.field("adults", 1, &carried)?);
    put(&mut body, 1, words.field("children", 1, &carried)?);
    put(&mut body, 1, words.field("bikes", 1, &carried)?);
    words.fixed("stops")?;
    let stops = words.all();
    let counts = *STOPS_IN_A_TRIP.start() as u64..=*STOPS_IN_A_TRIP.end() as u64;
    put(&mut body, 1, words.value_in("the number of stops", &stops.len().to_string(), 1, &counts)?);
    for stop in stops {
        put(&mut body, 2, words.value_in("the stop", stop, 2, &(0..=65_535))?);
    }
    Ok(body)
}

/// 0 for none, K, A, B, C, D for 1 to 5, or any number.
fn ticket_level(words: &mut Words) -> Result<u64, String> {
    words.fixed("level")?;
    match words.next("the ticket level")? {
        "K" => Ok(1),
        "A" => Ok(2),
        "B" => Ok(3),
        "C" => Ok(4),
        "D" => Ok(5),
        word if words.checks() && whole("", word).is_err() => {
            words.mistakes.push(format!("'{word}' is no ticket level: 0 for none, K, A, B, C or D"));
            Ok(0)
        }
        word => words.value_in("the ticket level", word, 1, &TICKET_LEVELS),
    }
}
