//! Examples, run on anything that settles, quotes and posts: samples/vectors.txt and samples/examples.txt, whose form
//! [`crate::maker::cases`] tells. What is printed comes of these alone, and each call is looked at besides: a refusal leaves
//! book and statement as they are, no byte behind the charge records is written, and under a ceiling a trip is settled as without it,
//! and the statements of a corrected roll are those of settling its trips one after another.

use crate::answer::Answer;
use crate::differential::Functions;
use crate::maker::bytes_of;
use crate::maker::cases::{sections_of, Content, Section, Sort};
use crate::model::book::BOOK_BYTES;
use crate::model::clock::Date;
use crate::model::correction::DIFFERENCES_BYTES;
use crate::model::month::{Kept, DUE_BYTES, KEPT_BYTES};
use crate::model::record::{record_at, Fields, KIND_AACHEN_AREA, KIND_AREA, KIND_EDITION};
use crate::model::roll::records_of;
use crate::model::statement::{number_of, ChargeRecord, LARGEST_STATEMENT};
use crate::numbers::number;

/// The files, by name.
pub const FILES: [(&str, &str); 2] = [
    ("vectors.txt", include_str!("../../samples/vectors.txt")),
    ("examples.txt", include_str!("../../samples/examples.txt")),
];

/// A refusal's number and place.
type Refused = (u32, u32);

/// What settles a roll: tariff, roll, and the text that is printed.
pub type SettleRoll = fn(&[u8], &[u8]) -> String;

/// Runs a file, its rolls only where something settles them. The answer is how many were offered; an error tells the
/// first of which something else came than was expected.
pub fn run(text: &str, functions: Functions, roll: Option<SettleRoll>) -> Result<usize, String> {
    let (book, kept) = (vec![0; BOOK_BYTES], vec![0; KEPT_BYTES]);
    let mut desk = Desk { functions, roll, tariff: Vec::new(), book, kept, quote: Vec::new(), line: 0 };
    let sections = sections_of(text).map_err(|fault| fault.to_string())?;
    let sections = sections.iter().filter(|section| section.sort != Sort::Roll || roll.is_some());
    sections.map(|section| desk.run(section)).sum()
}

/// A tariff and a book on which trips are settled one after another.
struct Desk {
    functions: Functions,
    roll: Option<SettleRoll>,
    tariff: Vec<u8>,
    book: Vec<u8>,
    /// Beside the book, under a ceiling.
    kept: Vec<u8>,
    /// The last one that was accepted.
    quote: Vec<u8>,
    /// Of the example that is run.
    line: usize,
}

impl Desk {
    /// Offers a section and its variants.
    fn run(&mut self, section: &Section) -> Result<usize, String> {
        let found = (self.book.clone(), self.kept.clone());
        self.line = section.line;
        let printed = self.offer(section.sort, &section.content);
        let expected = section.expected.join("\n");
        if printed.trim_end() != expected {
            return Err(format!("line {}: printed was\n{printed}\nand not\n{expected}", section.line));
        }
        for variant in &section.variants {
            let left = (self.tariff.clone(), self.book.clone(), self.kept.clone(), self.quote.clone());
            if !variant.leaves_a_trace {
                (self.book, self.kept) = found.clone();
            }
            self.line = variant.line;
            let printed = self.offer(section.sort, &variant.content);
            if !ends(&printed.trim_end().replace('\n', " / "), &variant.end) {
                return Err(format!("line {}: printed was\n{printed}\nand not .. {}", variant.line, variant.end));
            }
            if !variant.leaves_a_trace {
                (self.tariff, self.book, self.kept, self.quote) = left;
            }
        }
        Ok(1 + section.variants.len())
    }

    /// What comes of a section, as text.
    fn offer(&mut self, sort: Sort, content: &Content) -> String {
        let bytes = &content.bytes;
        let room = content.room.unwrap_or(LARGEST_STATEMENT);
        match sort {
            Sort::Tariff | Sort::Sample => {
                self.tariff.clone_from(bytes);
                self.tariff_line()
            }
            Sort::Price => self.price_line(bytes),
            Sort::Settle => {
                let mut book = self.book.clone();
                let settled = self.settled(&self.tariff, &mut book, bytes, room);
                self.book = book;
                settled.map_or_else(refused_line, |records| record_lines(&records))
            }
            Sort::Quote => match self.quoted(&self.tariff, &self.book, bytes, room) {
                Ok(records) => {
                    self.quote = records;
                    record_lines(&self.quote)
                }
                Err(refused) => refused_line(refused),
            },
            Sort::Post => {
                let mut book = self.book.clone();
                let posted = self.posted(&self.tariff, &mut book, bytes, &content.offered.bytes(&self.quote));
                self.book = book;
                posted.map_or_else(refused_line, |()| "posted".to_string())
            }
            Sort::Month => {
                if let Some(kept) = &content.kept {
                    self.kept.clone_from(kept);
                }
                self.settled_in_a_month(content, room).unwrap_or_else(refused_line)
            }
            Sort::Correct => self.corrected(content).unwrap_or_else(refused_line),
            Sort::Fresh => {
                (self.book, self.kept) = (vec![0; BOOK_BYTES], vec![0; KEPT_BYTES]);
                String::new()
            }
            Sort::Book => {
                self.book.clone_from(bytes);
                match self.fault_of(&self.book, &[]) {
                    1..=3 => "no tariff".to_string(),
                    4 => "book refused 4".to_string(),
                    _ => "book sound".to_string(),
                }
            }
            Sort::Words => {
                let words = self.book.chunks(4).map(number).enumerate().filter(|&(_, word)| word != 0);
                words.map(|(place, word)| format!("{place}:{word}")).collect::<Vec<String>>().join(" ")
            }
            Sort::Roll => self.roll.map_or(String::new(), |roll| roll(&self.tariff, bytes)),
        }
    }

    /// The bytes of the charge records. A refusal leaves the book, and a quote with its posting comes to the same.
    fn settled(&self, tariff: &[u8], book: &mut [u8], trip: &[u8], room: usize) -> Result<Vec<u8>, Refused> {
        let (line, mut before) = (self.line, book.to_vec());
        let settled = self.written(room, |statement| (self.functions.settle)(tariff, book, trip, statement));
        let quoted = self.quoted(tariff, &before, trip, room);
        assert_eq!(quoted, settled, "line {line}: the quote is not what settling gives");
        if let Ok(record) = quoted {
            let posted = self.posted(tariff, &mut before, trip, &record);
            assert_eq!(posted, Ok(()), "line {line}: the quote is not accepted");
        }
        assert!(book == before, "line {line}: the book is not as it was, or not as a posting leaves it");
        settled
    }

    /// The lines of the charge records, and one of what is due and kept. A refusal leaves all, and but for 24 settling comes to the
    /// same on the book; where there is no room for what is due, settling without a statement.
    fn settled_in_a_month(&mut self, content: &Content, room: usize) -> Result<String, Refused> {
        let Content { bytes: trip, ceiling, due: size, .. } = content;
        let (mut kept, mut book, mut due) = (self.kept.clone(), self.book.clone(), vec![0x5b; *size]);
        let records = self.written(room, |statement| {
            (self.functions.settle_month)(*ceiling, &mut kept, &self.tariff, &mut book, trip, statement, &mut due)
        });
        let line = self.line;
        if records != Err((24, 0)) {
            let mut alone = self.book.clone();
            let settled = self.settled(&self.tariff, &mut alone, trip, if *size < DUE_BYTES { 0 } else { room });
            assert_eq!(records, settled, "line {line}: not what settling gives");
            assert!(alone == book, "line {line}: not the book that settling leaves");
        }
        let Ok(records) = records else {
            let is_left = kept == self.kept && book == self.book && due.iter().all(|&byte| byte == 0x5b);
            assert!(is_left, "line {line}: a refusal under a ceiling changed something");
            return records.map(|_| String::new());
        };
        assert!(
            due[DUE_BYTES..].iter().all(|&byte| byte == 0x5b),
            "line {line}: a byte behind what is due was written"
        );
        (self.kept, self.book) = (kept, book);
        let Kept { month, amount } = Kept::read(&self.kept).expect("accepted, so a pair");
        let due = number(&due[..DUE_BYTES]);
        Ok(format!("{}\ndue {due}, month {month} collected {amount}", record_lines(&records)))
    }

    /// The lines of the corrected roll's charge records, and one of their bytes and the differences. A refusal writes nothing, and the
    /// statements are those of settling the corrected roll's trips.
    fn corrected(&self, content: &Content) -> Result<String, Refused> {
        let Content { bytes: roll, nth, replacement, differences: size, room, .. } = content;
        let (line, mut differences) = (self.line, vec![0x5b; *size]);
        let mut trips: Vec<&[u8]> = records_of(roll).into_iter().flatten().collect();
        let room = room.unwrap_or(LARGEST_STATEMENT * trips.len());
        let call = |statements: &mut [u8]| {
            (self.functions.correct)(&self.tariff, roll, *nth, replacement, statements, &mut differences)
        };
        // 0 where no trip of the corrected roll is accepted
        let records = self.written_as(room, call, |desk, number| if number == 0 { Ok(0) } else { desk.answer(number) });
        let (told, behind) = differences.split_at(if records.is_ok() { DIFFERENCES_BYTES } else { 0 });
        assert!(behind.iter().all(|&byte| byte == 0x5b), "line {line}: a byte behind the differences was written");
        let records = records?;
        trips[*nth as usize - 1] = replacement;
        let mut book = vec![0; BOOK_BYTES];
        let one = |trip: &&[u8]| self.settled(&self.tariff, &mut book, trip, LARGEST_STATEMENT).unwrap_or_default();
        let afresh: Vec<u8> = trips.iter().flat_map(one).collect();
        assert_eq!(records, afresh, "line {line}: not the statements that settling gives");
        let numbers = told.chunks(8).map(|bytes| i64::from_le_bytes(bytes.try_into().expect("8 bytes")));
        let some = numbers.enumerate().filter(|&(_, difference)| difference != 0);
        let some: String = some.map(|(payer, difference)| format!(" {payer}:{difference}")).collect();
        let some = if some.is_empty() { " none" } else { &some };
        let lines = if records.is_empty() { String::new() } else { record_lines(&records) + "\n" };
        Ok(format!("{lines}bytes {}, differences{some}", records.len()))
    }

    /// The bytes of the charge records.
    fn quoted(&self, tariff: &[u8], book: &[u8], trip: &[u8], room: usize) -> Result<Vec<u8>, Refused> {
        self.written(room, |statement| (self.functions.quote)(tariff, book, trip, statement))
    }

    /// Answers the book's length, or leaves the book.
    fn posted(&self, tariff: &[u8], book: &mut [u8], trip: &[u8], record: &[u8]) -> Result<(), Refused> {
        let (line, before) = (self.line, book.to_vec());
        let answer = self.answer((self.functions.post)(tariff, book, trip, record));
        match answer {
            Ok(written) => assert_eq!(written, book.len(), "line {line}: not the book's length"),
            Err((number, _)) => assert!(book == before, "line {line}: refusal {number} changed the book"),
        }
        answer.map(drop)
    }

    /// What a call writes to a statement of this length; it writes nothing behind that, and nothing where it refuses.
    fn written(&self, room: usize, call: impl FnOnce(&mut [u8]) -> u64) -> Result<Vec<u8>, Refused> {
        self.written_as(room, call, Desk::answer)
    }

    /// Likewise, of a call whose number stands for such an answer.
    fn written_as(
        &self,
        room: usize,
        call: impl FnOnce(&mut [u8]) -> u64,
        answer: fn(&Desk, u64) -> Result<usize, Refused>,
    ) -> Result<Vec<u8>, Refused> {
        let blank: Vec<u8> = (0..room).map(|place| 0x5b ^ place as u8).collect();
        let mut statement = blank.clone();
        let answer = answer(self, call(&mut statement));
        let (records, behind) = statement.split_at(answer.unwrap_or(0));
        assert_eq!(behind, &blank[records.len()..], "line {}: a byte was written that is no record's", self.line);
        answer.map(|_| records.to_vec())
    }

    /// The bytes written.
    fn answer(&self, number: u64) -> Result<usize, Refused> {
        match Answer::of(number) {
            Some(Answer::Accepted { bytes }) => Ok(bytes as usize),
            Some(Answer::Refused { refusal, place }) => Err((refusal as u32, place)),
            None => panic!("line {}: {number} was answered, which is no answer", self.line),
        }
    }

    /// The number of the refusal of this trip on this book where the statement has no room.
    fn fault_of(&self, book: &[u8], trip: &[u8]) -> u32 {
        self.settled(&self.tariff, &mut book.to_vec(), trip, 0).expect_err("there is no room").0
    }

    /// A faultless tariff's editions are those that a book's last word may name, an edition's areas those that a bicycle's word
    /// may, its stops those that a trip of its window may.
    fn tariff_line(&self) -> String {
        match self.settled(&self.tariff, &mut [], &[], 0) {
            Err((4, _)) => {
                let is_edition = |edition: &u8| self.fault_of(&used_book(*edition, 0), &[]) != 4;
                let editions = (1..).take_while(is_edition).zip(first_minutes(&self.tariff));
                let lines = editions.map(|(edition, since)| self.edition_line(edition, since));
                format!("tariff faultless{}", lines.collect::<String>())
            }
            Err((number, place)) => format!("tariff refused {number} at {place}"),
            Ok(_) => unreachable!("a book of no bytes is refused"),
        }
    }

    fn edition_line(&self, edition: u8, since: u64) -> String {
        let is_area = |area: &u8| self.fault_of(&used_book(edition, *area), &[]) != 4;
        let is_stop = |stop: &usize| self.fault_of(&used_book(edition, 0), &trip_between(*stop)) != 7;
        let (areas, stops) = ((1..).take_while(is_area).count(), (0..).take_while(is_stop).count());
        format!(", from minute {since} areas {areas} stops {stops}")
    }

    /// The price is what is charged on a fresh book where no area has a day cap; a line for each part.
    fn price_line(&self, trip: &[u8]) -> String {
        match self.fault_of(&[0; BOOK_BYTES], trip) {
            1..=3 => return "no tariff".to_string(),
            12 => (),
            number => return format!("refused {number}"),
        }
        let mut tariff = self.tariff.clone();
        without_day_caps(&mut tariff);
        let mut with_a_child = trip.to_vec();
        with_a_child[20..23].copy_from_slice(&[0, 1, 0]);
        let settled = self.settled(&tariff, &mut [0; BOOK_BYTES], &with_a_child, LARGEST_STATEMENT);
        let lines = records_in(&settled.expect("the trip is no refusal")).into_iter().map(|record| {
            let ChargeRecord { area, km, minutes, charges, .. } = record;
            format!("area {area} km {km} min {minutes} price {} child {}", charges[0], charges[1])
        });
        lines.collect::<Vec<String>>().join("\n")
    }
}

/// The charge records that stand one after another in these bytes.
fn records_in(bytes: &[u8]) -> Vec<ChargeRecord> {
    ChargeRecord::read_all(bytes).expect("charge records were written")
}

fn record_lines(bytes: &[u8]) -> String {
    records_in(bytes).iter().map(record_line).collect::<Vec<String>>().join("\n")
}

fn refused_line((number, place): Refused) -> String {
    format!("refused {number} at {place}")
}

/// For each person the charge, what was taken off, and the area and class of the cap; for each bicycle the charge.
fn record_line(record: &ChargeRecord) -> String {
    let ChargeRecord { opening, area, km, minutes, charges, cuts, .. } = record;
    let persons = charges.iter().zip(cuts).map(|(charge, cut)| {
        let (area, class) = cut.cap.map_or((255, 0), |(area, class)| (area, number_of(class)));
        format!(" {charge} off {} by {area} {class}", cut.reduction)
    });
    let bicycles = charges[cuts.len()..].iter().map(|charge| format!(" {charge}"));
    let cents: String = persons.chain(bicycles).collect();
    format!("open {opening} area {area} km {km} min {minutes} cents{cents}")
}

/// Leaves a faultless tariff's areas without day caps, which stand at one place in both kinds of area.
fn without_day_caps(tariff: &mut [u8]) {
    let mut place = 0;
    while let Some(record) = tariff.get(place..).and_then(|rest| record_at(rest, 0)) {
        let (size, is_area) = (record.size(), [KIND_AREA, KIND_AACHEN_AREA].contains(&record.kind));
        if is_area {
            tariff[place + 25..place + 27].fill(0xff);
        }
        place += size;
    }
}

/// The first minutes of a faultless tariff's editions.
fn first_minutes(tariff: &[u8]) -> Vec<u64> {
    let (mut minutes, mut place) = (Vec::new(), 0);
    while let Some(record) = record_at(tariff, place) {
        if record.kind == KIND_EDITION {
            minutes.extend(Date::read(&mut Fields::of(record.body)).first_minute());
        }
        place += record.size();
    }
    minutes
}

/// A book of one trip, at minute 0 under this edition, whose first bicycle's covering area is this one, counted from 1.
fn used_book(edition: u8, area: u8) -> Vec<u8> {
    let mut book = vec![0; BOOK_BYTES];
    book[0] = 1;
    book[4 * 1_347] = area;
    book[4 * 1_367] = edition;
    book
}

/// A trip of that book's window; it is too long for a mistap.
fn trip_between(stop: usize) -> Vec<u8> {
    let (from, to) = ("2000-01-01T01:00+01:00", "2000-01-01T01:03+01:00");
    let text = format!("trip {from} to {to} class 2 level 0 adults 0 children 0 bikes 0 stops");
    bytes_of(&format!("{text} {stop} {stop}")).expect("a trip")
}

/// Whether the text ends in these whole words, or is no refusal where that is asked.
fn ends(printed: &str, end: &str) -> bool {
    match end {
        "accepted" => !printed.contains("refused"),
        _ => printed.strip_suffix(end).is_some_and(|before| before.is_empty() || before.ends_with(' ')),
    }
}
