//! A case, and the line of JSON that it is written as.

use crate::answer::Answer;
use crate::model::clock::Stamp;
use crate::model::roll::records_of;
use crate::model::trip::Trip;
use std::fmt::Write;

/// What a function is given, by the name of its parameter.
#[derive(Clone, Debug, PartialEq, Eq)]
pub enum Given {
    Slice(Vec<u8>),
    Number(u64),
}

pub struct Case {
    /// The exported function's name.
    pub function: &'static str,
    /// In the order of the function's parameters.
    pub given: Vec<(&'static str, Given)>,
    pub answer: u64,
    /// The slices that may be written, as they are then.
    pub then: Vec<(&'static str, Vec<u8>)>,
    /// What it shows.
    pub shows: Vec<String>,
    /// Whence it comes.
    pub from: String,
}

/// Zeros, or bytes that stay, between two pieces; fewer are written with the pieces around them.
const GAP: usize = 6;

impl Case {
    pub fn slice(&self, name: &str) -> Option<&[u8]> {
        self.given.iter().find_map(|(own, given)| match given {
            Given::Slice(bytes) if *own == name => Some(bytes.as_slice()),
            _ => None,
        })
    }

    pub fn number(&self, name: &str) -> Option<u64> {
        self.given.iter().find_map(|(own, given)| match given {
            Given::Number(number) if *own == name => Some(*number),
            _ => None,
        })
    }

    /// The slice as it is after the call.
    pub fn slice_then(&self, name: &str) -> Option<&[u8]> {
        let written = self.then.iter().find(|(own, _)| *own == name);
        written.map(|(_, bytes)| bytes.as_slice()).or_else(|| self.slice(name))
    }

    /// The refusal's number, 0 where the call is accepted.
    pub fn refusal(&self) -> u64 {
        self.answer >> 32
    }

    /// What is due as an answer to the case's line (`answering`).
    pub fn answer_line(&self) -> String {
        let mut text = self.answer.to_string();
        for (name, given) in &self.given {
            if let Given::Slice(_) = given {
                let bytes = self.slice_then(name).expect("it is given");
                write!(text, " {name}={}", hex(bytes)).expect("into a text");
            }
        }
        text
    }

    /// The trip, the trips of a roll, and what replaces one of them, each as far as it is there.
    fn trips_in_words(&self) -> String {
        let of = |name| self.slice(name).map(|bytes| format!("\"{name}\":\"{}\",", trip_in_words(bytes)));
        let roll = self.slice("roll").map(|roll| {
            let words = |record: Option<&[u8]>| record.map_or("a broken frame".to_string(), trip_in_words);
            let records = records_of(roll).into_iter().map(|record| format!("\"{}\"", words(record)));
            let records: Vec<String> = records.collect();
            format!("\"roll\":[{}],", records.join(","))
        });
        [of("trip"), roll, of("replacement")].into_iter().flatten().collect()
    }

    /// The case as a line of JSON, its tariff by this name.
    pub fn json(&self, number: usize, tariff: Option<&str>) -> String {
        let given = self.given.iter().map(|(name, given)| match given {
            Given::Number(number) => format!("\"{name}\":{number}"),
            Given::Slice(_) if *name == "tariff" => format!("\"tariff\":\"{}\"", tariff.expect("it has one")),
            Given::Slice(bytes) => format!("\"{name}\":{}", slice_json(bytes)),
        });
        let given: Vec<String> = given.collect();
        let written = self.then.iter().filter_map(|(name, then)| {
            let before = self.slice(name)?;
            (before != then).then(|| format!("\"{name}\":{}", pieces_json(before, then)))
        });
        let written: Vec<String> = written.collect();
        let shows: Vec<String> = self.shows.iter().map(|text| format!("\"{text}\"")).collect();
        let trip = self.trips_in_words();
        format!(
            "{{\"case\":{number},\"function\":\"{}\",\"words\":{{{trip}\"answer\":\"{}\",\"shows\":[{}],\"from\":\"{}\"}},\"given\":{{{}}},\"answer\":{},\"written\":{{{}}}}}",
            self.function,
            answer_in_words(self.answer),
            shows.join(","),
            self.from,
            given.join(","),
            self.answer,
            written.join(","),
        )
    }
}

/// A slice: its bytes or, where that is shorter, its length and the pieces that are not zero by their offsets.
pub fn slice_json(bytes: &[u8]) -> String {
    let whole = format!("\"{}\"", hex(bytes));
    let sparse = format!("{{\"bytes\":{},\"pieces\":{}}}", bytes.len(), pieces_json(&vec![0; bytes.len()], bytes));
    if sparse.len() < whole.len() {
        sparse
    } else {
        whole
    }
}

/// The pieces in which a slice differs from what it was, by their offsets.
fn pieces_json(before: &[u8], then: &[u8]) -> String {
    let mut pieces: Vec<(usize, usize)> = Vec::new();
    for place in (0..then.len()).filter(|&place| before[place] != then[place]) {
        match pieces.last_mut() {
            Some((_, end)) if place < *end + GAP => *end = place + 1,
            _ => pieces.push((place, place + 1)),
        }
    }
    let pieces: Vec<String> =
        pieces.into_iter().map(|(start, end)| format!("\"{start}\":\"{}\"", hex(&then[start..end]))).collect();
    format!("{{{}}}", pieces.join(","))
}

pub fn hex(bytes: &[u8]) -> String {
    let digit = |half: u8| char::from(b"0123456789abcdef"[usize::from(half)]);
    bytes.iter().flat_map(|byte| [digit(byte >> 4), digit(byte & 15)]).collect()
}

/// The bytes that such digits, large or small, stand for; nothing where they stand for none.
pub fn bytes_of(text: &str) -> Option<Vec<u8>> {
    let digit = |letter: u8| char::from(letter).to_digit(16).map(|half| half as u8);
    let bytes = text.as_bytes().chunks(2).map(|pair| Some(16 * digit(pair[0])? + digit(*pair.get(1)?)?));
    bytes.collect()
}

fn answer_in_words(number: u64) -> String {
    match Answer::of(number) {
        Some(Answer::Accepted { bytes }) => format!("accepted: {bytes}"),
        Some(refused) => refused.to_string(),
        None => "accepted: 0".to_string(),
    }
}

/// The line of docs/TEXT.md that the trip is made from, as far as its bytes are a trip.
fn trip_in_words(bytes: &[u8]) -> String {
    let Some(trip) = Trip::read(bytes) else { return format!("no trip record, {} bytes", bytes.len()) };
    let stamp = |stamp: &Stamp| {
        let Stamp { year, month, day, hour, minute, offset } = stamp;
        format!("{year:04}-{month:02}-{day:02}T{hour:02}:{minute:02}+{offset:02}:00")
    };
    let Trip { check_in, check_out, class, ticket_level, adults, children, bicycles, stops } = &trip;
    let level = ["0", "K", "A", "B", "C", "D"].get(*ticket_level as usize);
    let level = level.map_or(ticket_level.to_string(), |name| name.to_string());
    let stops: Vec<String> = stops.iter().map(usize::to_string).collect();
    format!(
        "trip {} to {} class {class} level {level} adults {adults} children {children} bikes {bicycles} stops {}",
        stamp(check_in),
        stamp(check_out),
        stops.join(" "),
    )
}

#[cfg(test)]
mod tests {
    use super::*;

    #[test]
    fn slices_are_written_whole_or_in_pieces() {
        assert_eq!(slice_json(&[1, 2, 0xff]), "\"0102ff\"");
        assert_eq!(slice_json(&[]), "\"\"");
        let mut book = vec![0; 100];
        (book[0], book[4], book[90]) = (7, 8, 9);
        assert_eq!(slice_json(&book), "{\"bytes\":100,\"pieces\":{\"0\":\"0700000008\",\"90\":\"09\"}}");
        assert_eq!(pieces_json(&[1, 2, 3], &[1, 5, 3]), "{\"1\":\"05\"}");
    }
}
