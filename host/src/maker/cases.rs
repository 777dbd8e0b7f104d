//! Case files: sections of records, each with the lines that are expected of it.
//!
//! ```text
//! tariff:        # the records that follow are one tariff
//! area ..
//! = tariff faultless, areas 1 stops 0
//! fresh:         # a fresh book, no record
//! price:         # the one trip that follows is only priced
//! trip ..
//! = area 6 km 6 min 20 price 347 child 174
//! settle:        # the one trip that follows is settled
//! trip ..
//! = open 526860 area 2 km 3 min 8 cents 221 off 0 by 255 0
//! ```
//!
//! A section's records end at the next line that ends in ':' or starts with '=', 'but' or 'then'. The text of a '='
//! line is taken as it stands, without one blank after the '='. For a trip that does not fill its slice, `bytes` may
//! stand beside the record.
//!
//! These are what the program `vectors` knows: for each section its input has a tag byte, the length of its bytes in 4
//! bytes, and its bytes; its output has the expected lines. Examples have more:
//!
//! ```text
//! sample:        # the tariff of samples/tariff.txt
//! book:          # a book: all words are 0 but these; `length` gives it as many bytes
//! word 0 256
//! = book sound
//! words:         # the book's words that are not 0
//! = 0:256
//! settle:
//! room 16        # bytes of the statement
//! trip .. class 2 .. stops 0 1
//! = refused 12 at 0
//! but class 2 -> class 3 = refused 6 at 0
//! then class 2 -> class 1, stops 0 1 -> stops 0 2 = cents 345
//! quote:         # the one trip that follows is quoted
//! trip ..
//! = open 526860 area 2 km 3 min 8 cents 221 off 0 by 255 0
//! post:          # the one trip that follows is posted, by the last quote that was accepted
//! quote whole    # or `cut 25`, its first 25 bytes; `longer 1`, a zero more; `off 9`, byte 9 one off; `first`, `second`, `swapped`
//! trip ..
//! = posted
//! month:         # the one trip that follows is settled under a monthly ceiling
//! ceiling 15000
//! kept 321 14500 # before: a month, counted from January 2000, and what was collected in it; unless given, what the last one left
//! due 4          # bytes for what is due; 4 unless given
//! trip ..
//! = open 526860 area 2 km 3 min 8 cents 221 off 0 by 255 0
//! = due 221, month 12 collected 221
//! correct:       # the records that follow are a roll, of which one is corrected
//! nth 2          # which one, from 1
//! by ..          # the record that takes its place, as `trip` or `bytes`; nothing unless given
//! differences 9  # bytes for the differences; 248 unless given
//! trip ..
//! trip ..
//! = open 526860 area 2 km 3 min 8 cents 221 off 0 by 255 0
//! = bytes 26, differences 0:-100
//! roll:          # the records that follow are a roll
//! trip ..
//! ```
//!
//! Of the differences those are told that are not 0, by payer: 0 is the account holder, 1 to 10 are adults, 11 to 20 children, 21 to 30
//! bicycles. A correction leaves the book. A fresh book has nothing kept beside it; `kept` takes `length`, too, which gives it as many bytes. A broken trip has two lines,
//! one for each part. `but` offers the section once more with texts of it replaced, instead
//! of it: on the tariff and the book that it found, and without a trace. `then` offers it after what stands before. Each
//! text stands once in the section. Of the answer to these only the end is given, with ` / ` between two lines, or
//! `accepted` for any that is no refusal.

use super::records::Records;
use super::words::Words;
use super::{bytes_of, lines_of, without_comment, Fault};
use crate::model::book::BOOK_BYTES;
use crate::model::correction::DIFFERENCES_BYTES;
use crate::model::month::{Kept, DUE_BYTES};
use crate::numbers::put;
use crate::offered::Offered;

/// A sort of section.
#[derive(Clone, Copy, Debug, PartialEq, Eq)]
pub enum Sort {
    Tariff,
    Sample,
    Price,
    Settle,
    Quote,
    Post,
    Month,
    Correct,
    Fresh,
    Book,
    Words,
    Roll,
}

const SORTS: [(&str, Sort); 12] = [
    ("tariff:", Sort::Tariff),
    ("sample:", Sort::Sample),
    ("price:", Sort::Price),
    ("settle:", Sort::Settle),
    ("quote:", Sort::Quote),
    ("post:", Sort::Post),
    ("month:", Sort::Month),
    ("correct:", Sort::Correct),
    ("fresh:", Sort::Fresh),
    ("book:", Sort::Book),
    ("words:", Sort::Words),
    ("roll:", Sort::Roll),
];

impl Sort {
    fn name(self) -> &'static str {
        SORTS.iter().find(|(_, sort)| *sort == self).map_or("", |(name, _)| name)
    }

    /// What the program `vectors` knows it by.
    fn tag(self) -> Option<u8> {
        match self {
            Sort::Tariff => Some(b'T'),
            Sort::Price => Some(b'P'),
            Sort::Settle => Some(b'S'),
            Sort::Fresh => Some(b'B'),
            _ => None,
        }
    }
}

/// A section, and what is offered besides.
#[derive(Clone, Debug, PartialEq, Eq)]
pub struct Section {
    pub line: usize,
    pub sort: Sort,
    pub content: Content,
    pub expected: Vec<String>,
    pub variants: Vec<Variant>,
}

/// What a section's lines give.
#[derive(Clone, Debug, PartialEq, Eq)]
pub struct Content {
    pub bytes: Vec<u8>,
    /// Bytes of the statement, if that was said.
    pub room: Option<usize>,
    /// What is made of the quote that a posting is offered.
    pub offered: Offered,
    /// In a month: the ceiling, what is kept before if that was said, and the bytes for what is due.
    pub ceiling: u32,
    pub kept: Option<Vec<u8>>,
    pub due: usize,
    /// Of a correction: the record's number, what takes its place, and the bytes for the differences.
    pub nth: u32,
    pub replacement: Vec<u8>,
    pub differences: usize,
}

/// That of no lines.
impl Default for Content {
    fn default() -> Content {
        Content {
            bytes: Vec::new(),
            room: None,
            offered: Offered::Whole,
            ceiling: 0,
            kept: None,
            due: DUE_BYTES,
            nth: 0,
            replacement: Vec::new(),
            differences: DIFFERENCES_BYTES,
        }
    }
}

/// A `but` or a `then`.
#[derive(Clone, Debug, PartialEq, Eq)]
pub struct Variant {
    pub line: usize,
    pub leaves_a_trace: bool,
    pub content: Content,
    /// The end of the line that is expected.
    pub end: String,
}

/// A section as it stands in the text.
struct Draft<'a> {
    line: usize,
    sort: Sort,
    lines: Vec<(usize, String)>,
    expected: Vec<String>,
    /// Each with its line, and whether it leaves a trace.
    variants: Vec<(usize, bool, &'a str)>,
}

/// The sections of a case file.
pub fn sections_of(text: &str) -> Result<Vec<Section>, Fault> {
    let mut drafts: Vec<Draft> = Vec::new();
    for (line, content) in lines_of(text) {
        let fault = |text: &str| Fault { line, text: text.to_string() };
        let bare = without_comment(content);
        let (first, rest) = bare.split_once(' ').unwrap_or((bare, ""));
        if let Some(expected) = content.trim_start().strip_prefix('=') {
            let draft = drafts.last_mut().ok_or_else(|| fault("an expected line before any section"))?;
            draft.expected.push(expected.strip_prefix(' ').unwrap_or(expected).to_string());
        } else if bare.ends_with(':') {
            let sort = SORTS.iter().find(|(name, _)| *name == bare).map(|(_, sort)| *sort);
            let sort = sort.ok_or_else(|| fault(&format!("'{bare}' is no sort of section")))?;
            drafts.push(Draft { line, sort, lines: Vec::new(), expected: Vec::new(), variants: Vec::new() });
        } else if first == "but" || first == "then" {
            let draft = drafts.last_mut().ok_or_else(|| fault("a variant before any section"))?;
            draft.variants.push((line, first == "then", rest));
        } else if !bare.is_empty() {
            let open = |draft: &&mut Draft| draft.expected.is_empty() && draft.variants.is_empty();
            let draft = drafts.last_mut().filter(open).ok_or_else(|| fault("a record outside a section"))?;
            draft.lines.push((line, bare.to_string()));
        }
    }
    drafts.into_iter().map(Draft::section).collect()
}

impl Draft<'_> {
    fn section(self) -> Result<Section, Fault> {
        let content = content_of(self.sort, self.line, &self.lines)?;
        let variants = self.variants.iter().map(|variant| self.variant(variant)).collect::<Result<_, _>>()?;
        Ok(Section { line: self.line, sort: self.sort, content, expected: self.expected, variants })
    }

    fn variant(&self, &(line, leaves_a_trace, text): &(usize, bool, &str)) -> Result<Variant, Fault> {
        let fault = |text: String| Fault { line, text };
        let (changes, end) = text.split_once('=').ok_or_else(|| fault("what is expected is missing".to_string()))?;
        let mut lines = self.lines.clone();
        for change in changes.split(", ").filter(|change| !change.trim().is_empty()) {
            let (from, to) =
                change.split_once("->").ok_or_else(|| fault(format!("'{}' replaces nothing", change.trim())))?;
            let (from, to) = (from.trim(), to.trim());
            if lines.iter().map(|(_, text)| text.matches(from).count()).sum::<usize>() != 1 {
                return Err(fault(format!("'{from}' does not stand there once")));
            }
            lines.iter_mut().for_each(|(_, text)| *text = text.replace(from, to));
        }
        let content = content_of(self.sort, line, &lines).map_err(|Fault { text, .. }| fault(text))?;
        Ok(Variant { line, leaves_a_trace, content, end: end.trim().to_string() })
    }
}

/// What the lines of a section that starts at this line give.
fn content_of(sort: Sort, line: usize, lines: &[(usize, String)]) -> Result<Content, Fault> {
    let fault = |text: &str| Fault { line, text: format!("{} {text}", sort.name()) };
    let mut content = Content::default();
    let mut records = Records::default();
    match sort {
        Sort::Sample | Sort::Fresh | Sort::Words if !lines.is_empty() => return Err(fault("takes no record")),
        Sort::Sample => {
            return Ok(Content { bytes: bytes_of(include_str!("../../../samples/tariff.txt"))?, ..content });
        }
        Sort::Book => return Ok(Content { bytes: book_of(lines)?, ..content }),
        _ => (),
    }
    for (line, text) in lines {
        match (sort, text.split_once(' ')) {
            (Sort::Settle | Sort::Quote | Sort::Month | Sort::Correct, Some(("room", bytes))) => {
                content.room = Some(numbers(*line, bytes, ["room"])?[0]);
            }
            (Sort::Post, Some(("quote", words))) => content.offered = offered_of(*line, words)?,
            (Sort::Month, Some(("ceiling", cents))) => content.ceiling = numbers(*line, cents, ["ceiling"])?[0] as u32,
            (Sort::Month, Some(("kept", words))) => content.kept = Some(kept_of(*line, words)?),
            (Sort::Month, Some(("due", bytes))) => content.due = numbers(*line, bytes, ["due"])?[0],
            (Sort::Correct, Some(("nth", number))) => content.nth = numbers(*line, number, ["nth"])?[0] as u32,
            (Sort::Correct, Some(("differences", bytes))) => {
                content.differences = numbers(*line, bytes, ["differences"])?[0];
            }
            (Sort::Correct, Some(("by", record))) => content.replacement = replacement_of(*line, record)?,
            _ => records.take(*line, text)?,
        }
    }
    let takes_one = matches!(sort, Sort::Price | Sort::Settle | Sort::Quote | Sort::Post | Sort::Month);
    match sort {
        _ if takes_one && records.is_without_lines() => Err(fault("has no record")),
        _ if takes_one && records.whole_records() > 1 => Err(fault("takes one record")),
        _ => Ok(Content { bytes: records.finish()?, ..content }),
    }
}

/// What is made of a quote, in a word and its number.
fn offered_of(line: usize, text: &str) -> Result<Offered, Fault> {
    let number = |rest: &str| numbers(line, rest, ["the number of bytes"]).map(|[number]| number);
    match text.split_once(' ').unwrap_or((text, "")) {
        ("whole", "") => Ok(Offered::Whole),
        ("cut", rest) => number(rest).map(Offered::Cut),
        ("longer", rest) => number(rest).map(Offered::Longer),
        ("off", rest) => number(rest).map(Offered::Off),
        ("first", "") => Ok(Offered::First),
        ("second", "") => Ok(Offered::Second),
        ("swapped", "") => Ok(Offered::Swapped),
        _ => Err(Fault { line, text: format!("'{text}' makes nothing of a quote") }),
    }
}

/// The bytes of the record that takes another one's place.
fn replacement_of(line: usize, text: &str) -> Result<Vec<u8>, Fault> {
    let mut record = Records::default();
    record.take(line, text)?;
    record.finish()
}

/// A month and an amount, or so many zeros.
fn kept_of(line: usize, text: &str) -> Result<Vec<u8>, Fault> {
    if let Some(rest) = text.strip_prefix("length ") {
        return numbers(line, rest, ["the length of what is kept"]).map(|[length]| vec![0; length]);
    }
    let [month, amount] = numbers(line, text, ["the month", "the amount"])?;
    Ok(Kept { month: month as u64, amount: amount as u64 }.bytes())
}

/// A book with these words.
fn book_of(lines: &[(usize, String)]) -> Result<Vec<u8>, Fault> {
    let mut book = vec![0; BOOK_BYTES];
    for &(line, ref text) in lines {
        match text.split_once(' ').unwrap_or((text, "")) {
            ("word", rest) => {
                let [place, word] = numbers(line, rest, ["the word's number", "the word"])?;
                let bytes = book.get_mut(4 * place..4 * place + 4);
                let bytes = bytes.ok_or(Fault { line, text: format!("a book has no word {place}") })?;
                bytes.copy_from_slice(&(word as u32).to_le_bytes());
            }
            ("length", rest) => book.resize(numbers(line, rest, ["the book's length"])?[0], 0),
            (other, _) => return Err(Fault { line, text: format!("'{other}' is no line of a book") }),
        }
    }
    Ok(book)
}

/// The numbers that a text gives, and no more than these.
fn numbers<const N: usize>(line: usize, text: &str, what: [&str; N]) -> Result<[usize; N], Fault> {
    let mut words = Words::of(text);
    let mut read = || -> Result<[usize; N], String> {
        let mut numbers = [0; N];
        for (number, what) in numbers.iter_mut().zip(what) {
            *number = words.number(what, 4)? as usize;
        }
        words.end()?;
        Ok(numbers)
    };
    read().map_err(|text| Fault { line, text })
}

/// What the program `vectors` reads, and what it prints.
#[derive(Clone, Debug, Default, PartialEq, Eq)]
pub struct Cases {
    pub input: Vec<u8>,
    pub output: Vec<u8>,
}

/// The program's input and output for a case file that has no more than it knows.
pub fn cases_of(text: &str) -> Result<Cases, Fault> {
    let mut cases = Cases::default();
    for Section { line, sort, content: Content { bytes, room, .. }, expected, variants } in sections_of(text)? {
        let tag = sort.tag().filter(|_| room.is_none() && variants.is_empty());
        let tag = tag.ok_or(Fault { line, text: format!("{} is not as the program knows it", sort.name()) })?;
        put(&mut cases.input, 1, u64::from(tag));
        put(&mut cases.input, 4, bytes.len() as u64);
        cases.input.extend(bytes);
        for line in expected {
            cases.output.extend(line.as_bytes());
            cases.output.push(b'\n');
        }
    }
    Ok(cases)
}

/// A tariff and a roll for each roll of a case file, those offered besides included.
pub fn rolls_of(text: &str) -> Result<Vec<(Vec<u8>, Vec<u8>)>, Fault> {
    let (mut tariff, mut rolls) = (Vec::new(), Vec::new());
    for Section { sort, content, variants, .. } in sections_of(text)? {
        match sort {
            Sort::Tariff | Sort::Sample => tariff = content.bytes,
            Sort::Roll => {
                let variants = variants.into_iter().map(|variant| variant.content);
                rolls.extend([content].into_iter().chain(variants).map(|content| (tariff.clone(), content.bytes)));
            }
            _ => (),
        }
    }
    Ok(rolls)
}
