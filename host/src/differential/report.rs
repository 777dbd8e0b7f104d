//! A case and a difference in words.

use super::books::{word, BICYCLES, BYTES, EDITION, PAYMENTS, WORDS};
use super::cases::{Call, Case};
use super::statements::Asked;
use crate::answer::Answer;

/// All that is needed to run the case again. The lines of bytes are as the maker reads them.
pub fn case_in_words(case: &Case) -> String {
    let story = case.story.join(", ");
    format!(
        "made as: {story}\ntariff of {} bytes:{}\nbook of {} bytes:{}\ntrip of {} bytes:{}\n",
        case.tariff.len(),
        hexadecimal(&case.tariff),
        case.book.len(),
        book_in_words(&case.book),
        case.trip.len(),
        hexadecimal(&case.trip),
    )
}

/// What is done with it.
pub fn call_in_words(case: &Case, call: Call) -> String {
    match call {
        Call::Settle | Call::Quote => format!("{}, with a statement of {} bytes\n", call.done(), case.room),
        Call::Post(record) => format!("posted, with a record of {} bytes:{}\n", record.len(), hexadecimal(record)),
    }
}

/// All that is needed to read the record again.
pub fn asked_in_words(asked: &Asked) -> String {
    let Asked { statement, at, room, story } = asked;
    let (story, bytes) = (story.join(", "), hexadecimal(statement));
    format!(
        "made as: {story}\nstatement of {} bytes:{bytes}\nread at {at}, into fields of {room} bytes\n",
        statement.len()
    )
}

/// What an answer's number stands for.
pub fn answer_in_words(number: u64) -> String {
    match Answer::of(number) {
        Some(answer) => answer.to_string(),
        None if number == 0 => "0 bytes written, which a correction alone answers".to_string(),
        None => format!("{number:#x}, which stands for nothing"),
    }
}

/// Where two books differ, word by word, the first few; nothing where they are equal.
pub fn books_differ(model: &[u8], other: &[u8], name: &str) -> Option<String> {
    if model == other {
        return None;
    }
    if model.len() != BYTES {
        return slices_differ("the book", model, other, name);
    }
    let places: Vec<usize> = (0..WORDS).filter(|&place| word(model, place) != word(other, place)).collect();
    let mut text = format!("{} words of the book differ", places.len());
    for &place in places.iter().take(8) {
        let (due, found) = (word(model, place), word(other, place));
        text += &format!("\n  word {place} ({}): {due} by the model, {found} by {name}", word_in_words(place));
    }
    Some(text)
}

/// Where two slices of one length differ first; nothing where they are equal.
pub fn slices_differ(what: &str, model: &[u8], other: &[u8], name: &str) -> Option<String> {
    let place = model.iter().zip(other).position(|(due, found)| due != found)?;
    Some(format!(
        "byte {place} of {what} is {:02x} by the model, {:02x} by {name}\n  by the model:{}\n  by {name}:{}",
        model[place],
        other[place],
        hexadecimal(model),
        hexadecimal(other)
    ))
}

/// Lines of up to 29 bytes: an area of kind 1 fills one.
pub fn hexadecimal(bytes: &[u8]) -> String {
    let line = |bytes: &[u8]| {
        let bytes: Vec<String> = bytes.iter().map(|byte| format!("{byte:02x}")).collect();
        format!("\n    bytes {}", bytes.join(" "))
    };
    bytes.chunks(29).map(line).collect()
}

/// The words that are not 0; all bytes of a book of the wrong length.
pub fn book_in_words(book: &[u8]) -> String {
    if book.len() != BYTES {
        return hexadecimal(book);
    }
    let some = (0..WORDS).filter(|&place| word(book, place) != 0);
    let words: String =
        some.map(|place| format!("\n    word {place} = {} ({})", word(book, place), word_in_words(place))).collect();
    if words.is_empty() {
        " all zero".to_string()
    } else {
        words
    }
}

/// What a word of the book holds.
fn word_in_words(place: usize) -> String {
    match place {
        0 => "trips".to_string(),
        1 => "opening".to_string(),
        2 => "last check-out".to_string(),
        EDITION.. => "edition".to_string(),
        PAYMENTS.. => format!("payments of bicycle {}", place - PAYMENTS + 1),
        BICYCLES.. => format!("bicycle {}", place - BICYCLES + 1),
        _ => {
            let (rider, area) = ((place - 3) / 64, (place - 3) % 64 / 2);
            let classes = if place % 2 == 1 { "second class" } else { "all classes" };
            format!("rider {rider}, area {area}, {classes}")
        }
    }
}
