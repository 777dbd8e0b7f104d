//! What corrections came to: how many were accepted, by what they met, and how many refused, by number and cause.

use super::calls::CorrectionCase;
use super::run::Left;
use crate::answer::Refusal as Named;
use crate::differential::books::{fresh, word, EDITION};
use crate::differential::counts::NUMBERS;
use crate::model::correction::{DIFFERENCES_BYTES, PAYERS};
use crate::model::roll::records_of;
use crate::model::statement::{ChargeRecord, LARGEST_STATEMENT};
use crate::model::{check_tariff, settle, Cents};
use std::fmt;

/// What became of one record of a roll.
struct Settled {
    bytes: Vec<u8>,
    /// None where it was refused.
    records: Vec<ChargeRecord>,
    /// That of the book behind it.
    edition: u64,
}

impl Settled {
    fn is_accepted(&self) -> bool {
        !self.records.is_empty()
    }

    fn total(&self) -> Cents {
        self.records.iter().map(ChargeRecord::total).sum()
    }

    fn opening(&self) -> Option<u64> {
        self.records.first().map(|record| record.opening)
    }

    /// Adults, children, bicycles.
    fn party(&self) -> Option<[usize; 3]> {
        self.records.first().map(|record| [record.adults, record.children, record.bicycles])
    }
}

/// A correction that was accepted.
struct Accepted<'a> {
    call: &'a CorrectionCase,
    /// Where the record stands, from 0.
    place: usize,
    old: Vec<Settled>,
    new: Vec<Settled>,
    written: usize,
    differences: Vec<i64>,
}

impl<'a> Accepted<'a> {
    fn of(call: &'a CorrectionCase, left: &Left, written: usize) -> Accepted<'a> {
        let place = call.n as usize - 1;
        let old: Vec<&[u8]> = records_of(&call.roll).into_iter().map(|record| record.unwrap_or(&[])).collect();
        let mut new = old.clone();
        new[place] = &call.replacement;
        let eight = left.differences[..DIFFERENCES_BYTES].chunks(8);
        let differences = eight.map(|bytes| i64::from_le_bytes(bytes.try_into().expect("8 bytes"))).collect();
        let [old, new] = [old, new].map(|trips| settled(&call.tariff, &trips));
        Accepted { call, place, old, new, written, differences }
    }

    /// The record before and after.
    fn both(&self) -> (&Settled, &Settled) {
        (&self.old[self.place], &self.new[self.place])
    }

    /// Whether a record behind the corrected one is so, before and after.
    fn later(&self, is_so: impl Fn(&Settled, &Settled) -> bool) -> bool {
        self.old.iter().zip(&self.new).skip(1 + self.place).any(|(old, new)| is_so(old, new))
    }

    /// Whether the party is larger in one place: of adults, children or bicycles.
    fn has_more(&self, which: usize) -> bool {
        let (old, new) = self.both();
        old.party().zip(new.party()).is_some_and(|(old, new)| new[which] > old[which])
    }

    fn has_fewer(&self, which: usize) -> bool {
        let (old, new) = self.both();
        old.party().zip(new.party()).is_some_and(|(old, new)| new[which] < old[which])
    }

    /// Whether one of ten payers has a difference, the first of which is this one.
    fn differs(&self, first: usize) -> bool {
        self.differences[first..first + 10].iter().any(|&difference| difference != 0)
    }

    fn total(&self) -> i64 {
        self.differences.iter().sum()
    }

    /// What the record alone costs more.
    fn own(&self) -> i64 {
        let (old, new) = self.both();
        new.total() as i64 - old.total() as i64
    }

    fn is_by_itself(&self) -> bool {
        self.old[self.place].bytes == self.call.replacement
    }
}

fn settled(tariff: &[u8], trips: &[&[u8]]) -> Vec<Settled> {
    let mut book = fresh();
    let mut one = |trip: &&[u8]| {
        let mut statement = [0; LARGEST_STATEMENT];
        let written = settle(tariff, &mut book, trip, &mut statement).unwrap_or(0);
        let records = ChargeRecord::read_all(&statement[..written]).expect("the model writes charge records");
        Settled { bytes: trip.to_vec(), records, edition: word(&book, EDITION) }
    };
    trips.iter().map(&mut one).collect()
}

/// What an accepted correction may meet, in words, and whether it does. One may be of several.
const ACCEPTED: [(&str, fn(&Accepted) -> bool); 47] = [
    ("the first record", |of| of.place == 0 && of.old.len() > 1),
    ("one in between", |of| of.place > 0 && of.place + 1 < of.old.len()),
    ("the last record", |of| of.place > 0 && of.place + 1 == of.old.len()),
    ("the only record", |of| of.old.len() == 1),
    ("the last whole one, a broken frame behind it", |of| {
        of.old.get(of.place + 1).is_some_and(|next| next.bytes.is_empty())
    }),
    ("by itself", |of| of.is_by_itself() && of.differences == [0; PAYERS]),
    ("by itself, and it is charged", |of| of.is_by_itself() && of.both().0.total() > 0),
    ("cancelled, and it was charged", |of| of.call.replacement.is_empty() && of.both().0.total() > 0),
    ("cancelled, and it was refused before", |of| of.call.replacement.is_empty() && !of.both().0.is_accepted()),
    ("by bytes that are no record", |of| {
        !of.call.replacement.is_empty() && records_of(&of.call.replacement)[0].is_none()
    }),
    ("by two records or more", |of| {
        let records = records_of(&of.call.replacement);
        records.len() > 1 && records[0].is_some() && records[1].is_some()
    }),
    ("by a longer record, accepted", |of| {
        of.both().1.is_accepted() && of.both().0.bytes.len() < of.call.replacement.len()
    }),
    ("by a shorter record, accepted", |of| {
        of.both().1.is_accepted() && of.both().0.bytes.len() > of.call.replacement.len()
    }),
    ("a record of another kind", |of| of.both().0.bytes[2] != 7),
    ("a record of another kind, by a trip", |of| of.both().0.bytes[2] != 7 && of.both().1.is_accepted()),
    ("refused before and accepted now", |of| !of.both().0.is_accepted() && of.both().1.is_accepted()),
    ("accepted before and refused now", |of| of.both().0.is_accepted() && !of.both().1.is_accepted()),
    ("refused before and after", |of| !of.both().0.is_accepted() && !of.both().1.is_accepted()),
    ("broken before and whole now", |of| of.both().0.records.len() == 2 && of.both().1.records.len() == 1),
    ("whole before and broken now", |of| of.both().0.records.len() == 1 && of.both().1.records.len() == 2),
    ("more adults", |of| of.has_more(0)),
    ("fewer adults", |of| of.has_fewer(0)),
    ("more children", |of| of.has_more(1)),
    ("fewer children", |of| of.has_fewer(1)),
    ("more bicycles", |of| of.has_more(2)),
    ("fewer bicycles", |of| of.has_fewer(2)),
    ("a later trip is refused since", |of| of.later(|old, new| old.is_accepted() && !new.is_accepted())),
    ("a later trip is accepted since", |of| of.later(|old, new| !old.is_accepted() && new.is_accepted())),
    ("a later trip's window opens at another minute", |of| {
        of.later(|old, new| old.opening().zip(new.opening()).is_some_and(|(old, new)| old != new))
    }),
    ("a later trip is of another edition", |of| {
        of.later(|old, new| old.is_accepted() && new.is_accepted() && old.edition != new.edition)
    }),
    ("a later trip costs more", |of| of.later(|old, new| old.is_accepted() && new.total() > old.total())),
    ("a later trip costs less", |of| of.later(|old, new| new.is_accepted() && new.total() < old.total())),
    ("the holder pays more", |of| of.differences[0] > 0),
    ("the holder pays less", |of| of.differences[0] < 0),
    ("an adult's difference", |of| of.differs(1)),
    ("a child's difference", |of| of.differs(11)),
    ("a bicycle's difference", |of| of.differs(21)),
    ("the tenth adult's, child's and bicycle's differences", |of| {
        [10, 20, 30].iter().all(|&payer| of.differences[payer] != 0)
    }),
    ("one pays more and another less", |of| {
        of.differences.iter().any(|&difference| difference > 0)
            && of.differences.iter().any(|&difference| difference < 0)
    }),
    ("less of a difference than the record's own", |of| of.own() != 0 && of.total().abs() < of.own().abs()),
    ("more of a difference than the record's own", |of| of.total().abs() > of.own().abs()),
    ("no statement at all", |of| of.written == 0),
    ("just room for the statements", |of| of.written > 0 && of.call.room == of.written),
    ("a byte more for the statements", |of| of.written > 0 && of.call.room == of.written + 1),
    ("just 248 bytes for the differences", |of| of.call.differences == DIFFERENCES_BYTES),
    ("249 bytes for the differences", |of| of.call.differences == DIFFERENCES_BYTES + 1),
    ("more bytes for the differences", |of| of.call.differences > DIFFERENCES_BYTES + 1),
];

/// Of a refusal: a cause or a circumstance, in words, and whether it is that of the call.
type Way = (usize, &'static str, fn(&CorrectionCase) -> bool);

const REFUSED: [Way; 20] = [
    (23, "n is 0", |call| call.n == 0),
    (23, "n is one beyond the last record", |call| !ends_broken(call) && call.n as usize == 1 + many(call)),
    (23, "n is further beyond it", |call| call.n as usize > 1 + many(call)),
    (23, "n is 65,535", |call| call.n == 65_535),
    (23, "n is 65,536", |call| call.n == 65_536),
    (23, "n agrees with a record's number in its lower two bytes", |call| {
        call.n > 65_535 && (1..=many(call)).contains(&(call.n as usize % 65_536))
    }),
    (23, "a broken frame at n", |call| ends_broken(call) && call.n as usize == many(call)),
    (23, "a broken frame before n", |call| ends_broken(call) && call.n as usize == 1 + many(call)),
    (23, "an empty roll", |call| call.roll.is_empty()),
    (23, "the tariff has a fault, too", |call| check_tariff(&call.tariff).is_err()),
    (23, "there is no room, either", |call| call.room == 0 && call.differences < DIFFERENCES_BYTES),
    (1, "there is no room, either", |call| call.room == 0 || call.differences < DIFFERENCES_BYTES),
    (2, "there is no room, either", |call| call.room == 0 || call.differences < DIFFERENCES_BYTES),
    (3, "there is no room, either", |call| call.room == 0 || call.differences < DIFFERENCES_BYTES),
    (12, "no byte for the statements alone", |call| call.room == 0 && call.differences >= DIFFERENCES_BYTES),
    (12, "a byte too few for the statements alone", |call| {
        call.differences >= DIFFERENCES_BYTES && call.room + 1 == super::needed(call)
    }),
    (12, "no byte for the differences alone", |call| call.differences == 0 && call.room >= super::needed(call)),
    (12, "247 bytes for the differences alone", |call| call.differences == 247 && call.room >= super::needed(call)),
    (12, "no room for either", |call| call.differences < DIFFERENCES_BYTES && call.room < super::needed(call)),
    (12, "no statement, and no room for the differences", |call| {
        super::needed(call) == 0 && call.differences < DIFFERENCES_BYTES
    }),
];

/// The records of the roll, a broken frame among them.
fn many(call: &CorrectionCase) -> usize {
    records_of(&call.roll).len()
}

fn ends_broken(call: &CorrectionCase) -> bool {
    records_of(&call.roll).last().is_some_and(Option::is_none)
}

/// What a correction met, in words: of what an accepted one may meet, or of the ways to its refusal.
pub fn met(call: &CorrectionCase, left: &Left) -> Vec<&'static str> {
    match left.answer {
        Ok(written) => {
            let of = Accepted::of(call, left, written);
            ACCEPTED.iter().filter(|(_, is_so)| is_so(&of)).map(|(way, _)| *way).collect()
        }
        Err(refusal) => {
            let ways = REFUSED.iter().filter(|(number, ..)| *number == refusal.number as usize);
            ways.filter(|(.., is_so)| is_so(call)).map(|(_, way, _)| *way).collect()
        }
    }
}

#[derive(Default)]
pub struct Corrections {
    /// Those that were accepted at 0, and those refused by number.
    answers: [u64; NUMBERS],
    accepted: Vec<u64>,
    refused: Vec<u64>,
}

impl Corrections {
    pub fn count(&mut self, call: &CorrectionCase, left: &Left) {
        self.accepted.resize(ACCEPTED.len(), 0);
        self.refused.resize(REFUSED.len(), 0);
        match left.answer {
            Ok(written) => {
                self.answers[0] += 1;
                let of = Accepted::of(call, left, written);
                for (count, (_, is_so)) in self.accepted.iter_mut().zip(ACCEPTED) {
                    *count += u64::from(is_so(&of));
                }
            }
            Err(refusal) => {
                self.answers[refusal.number as usize] += 1;
                for (count, (number, _, is_so)) in self.refused.iter_mut().zip(REFUSED) {
                    *count += u64::from(number == refusal.number as usize && is_so(call));
                }
            }
        }
    }

    pub fn calls(&self) -> u64 {
        self.answers.iter().sum()
    }

    /// What was not met at all.
    pub fn too_few(&self) -> Vec<String> {
        let told = |number: usize, what| format!("of a correction, {number}, {what}");
        let answers =
            DUE.into_iter().filter(|&number| self.answers[number] == 0).map(|number| told(number, "in any way"));
        let accepted = ACCEPTED.iter().zip(&self.accepted).filter(|(_, &count)| count == 0);
        let refused = REFUSED.iter().zip(&self.refused).filter(|(_, &count)| count == 0);
        let ways = refused.map(|((number, way, _), _)| told(*number, way));
        answers.chain(accepted.map(|((way, _), _)| told(0, way))).chain(ways).collect()
    }
}

/// The answers that have to be met: 0 for acceptance, and a correction's refusals.
const DUE: [usize; 6] = [0, 23, 1, 2, 3, 12];

impl fmt::Display for Corrections {
    fn fmt(&self, out: &mut fmt::Formatter) -> fmt::Result {
        writeln!(out, "corrections {}; one may be of several kinds", self.calls())?;
        writeln!(out, "  {:>8}  accepted", self.answers[0])?;
        for ((way, _), count) in ACCEPTED.iter().zip(&self.accepted) {
            writeln!(out, "  {count:>8}    {way}")?;
        }
        for given in DUE.into_iter().skip(1) {
            let text = Named::of(given as u64).map_or("", Named::text);
            writeln!(out, "  {:>8}  refused by {given} ({text})", self.answers[given])?;
            let ways = REFUSED.iter().zip(&self.refused).filter(|(way, _)| way.0 == given);
            for ((_, way, _), count) in ways {
                writeln!(out, "  {count:>8}    {way}")?;
            }
        }
        Ok(())
    }
}
