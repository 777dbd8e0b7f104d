//! A tariff file: one or two editions, each a date and then a tariff with numbers of its own. Refusals 1 to 3.

use super::clock::Date;
use super::record::{record_at, Fields, Record, KIND_EDITION};
use super::tariff::Tariff;
use super::{Minutes, Refusal};

pub const MOST_EDITIONS: usize = 2;

const OPENING_BODY: usize = 4;

#[derive(Clone, Debug, PartialEq, Eq)]
pub struct Edition {
    /// The first minute of its date in UTC, from which it is valid.
    pub since: Minutes,
    pub tariff: Tariff,
}

/// The editions in their order, numbered from 1.
#[derive(Clone, Debug, PartialEq, Eq)]
pub struct File {
    pub editions: Vec<Edition>,
}

/// The editions, or the fault of the file's first faulty record and that record's place.
pub fn read_file(bytes: &[u8]) -> Result<File, Refusal> {
    let mut file = File { editions: Vec::new() };
    let mut place = 0;
    while place < bytes.len() {
        let fault = |number| Refusal { number, place: place as u32 };
        let record = record_at(bytes, place).ok_or(fault(1))?;
        if record.kind == KIND_EDITION {
            if !file.may_have_another_edition(&record) {
                return Err(fault(2));
            }
            let since = file.next_date(&record).ok_or(fault(3))?;
            file.editions.push(Edition { since, tariff: Tariff::empty() });
        } else {
            // The first record opens an edition.
            let edition = file.editions.last_mut().ok_or(fault(2))?;
            edition.tariff.go_on_with(&record).map_err(fault)?;
        }
        place += record.size();
    }
    // An edition, an area or a factor record is still due.
    if !file.is_whole() {
        return Err(Refusal { number: 2, place: place as u32 });
    }
    Ok(file)
}

impl File {
    /// Whether body length, order and number let this opening come next.
    fn may_have_another_edition(&self, record: &Record) -> bool {
        let is_due = self.editions.is_empty() || self.is_whole();
        record.body.len() == OPENING_BODY && is_due && self.editions.len() < MOST_EDITIONS
    }

    /// The first minute of an opening's date; nothing where it is no date 2000..2099, or none after the edition before.
    fn next_date(&self, record: &Record) -> Option<Minutes> {
        let since = Date::read(&mut Fields::of(record.body)).first_minute()?;
        let is_later = self.editions.iter().all(|earlier| earlier.since < since);
        is_later.then_some(since)
    }

    /// Whether there is an edition, and nothing is due in the last one.
    fn is_whole(&self) -> bool {
        self.editions.last().is_some_and(|edition| edition.tariff.is_whole())
    }

    /// The number of the last edition whose first minute is not after this one; nothing before the first edition.
    pub fn in_force(&self, minute: Minutes) -> Option<usize> {
        self.editions.iter().rposition(|edition| edition.since <= minute).map(|place| 1 + place)
    }

    /// The tariff of the edition of this number.
    pub fn tariff(&self, edition: usize) -> &Tariff {
        &self.editions[edition - 1].tariff
    }

    /// How many areas each edition has.
    pub fn areas(&self) -> Vec<usize> {
        self.editions.iter().map(|edition| edition.tariff.areas.len()).collect()
    }
}
