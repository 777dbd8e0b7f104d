//! What calls under a ceiling came to: how many were accepted, by what they met, and how many refused, by number and cause.

use super::calls::MonthCase;
use super::run::Left;
use crate::answer::Refusal as Named;
use crate::differential::books::{word, OPENING, TRIPS};
use crate::differential::counts::NUMBERS;
use crate::model::month::{month_of, Kept, DUE_BYTES, KEPT_BYTES, MOST};
use crate::model::statement::{ChargeRecord, LARGEST_STATEMENT};
use crate::model::trip::Trip;
use crate::model::{check_tariff, Cents, Minutes};
use crate::numbers::number;
use std::fmt;

/// A call that was accepted.
struct Accepted<'a> {
    call: &'a MonthCase,
    trip: Trip,
    check_in: Minutes,
    check_out: Minutes,
    kept: Kept,
    /// What was collected before in the trip's month.
    before: Cents,
    /// What each record charges.
    charges: Vec<Cents>,
    due: Cents,
}

impl<'a> Accepted<'a> {
    fn of(call: &'a MonthCase, left: &Left, written: usize) -> Accepted<'a> {
        let trip = Trip::read(&call.case.trip).expect("accepted, so a trip");
        let minute = |stamp: &crate::model::clock::Stamp| stamp.minute_number().expect("accepted, so a time");
        let (check_in, check_out) = (minute(&trip.check_in), minute(&trip.check_out));
        let kept = Kept::read(&call.kept).expect("accepted, so a pair");
        let before = if kept.month == month_of(check_in) { kept.amount } else { 0 };
        let records = ChargeRecord::read_all(&left.statement[..written]).expect("the model writes charge records");
        let charges = records.iter().map(ChargeRecord::total).collect();
        let due = number(&left.due[..DUE_BYTES]);
        Accepted { call, trip, check_in, check_out, kept, before, charges, due }
    }

    fn month(&self) -> u64 {
        month_of(self.check_in)
    }

    fn charged(&self) -> Cents {
        self.charges.iter().sum()
    }

    fn ceiling(&self) -> Cents {
        self.call.ceiling.into()
    }

    /// Whether the local clock shows the next month already, with this offset.
    fn is_ahead(&self, offset: u64) -> bool {
        let stamp = &self.trip.check_in;
        let by_the_clock = 12 * (stamp.year - 2000) + stamp.month - 1;
        stamp.offset == offset && by_the_clock == self.month() + 1
    }

    fn is_broken(&self) -> bool {
        self.charges.len() == 2
    }

    fn ends_in_the_next_month(&self) -> bool {
        month_of(self.check_out) == self.month() + 1
    }
}

/// What an accepted call may meet, in words, and whether it does. One may be of several.
const ACCEPTED: [(&str, fn(&Accepted) -> bool); 37] = [
    ("all that is charged is due", |of| of.due == of.charged() && of.due > 0),
    ("what is charged is cut", |of| of.due > 0 && of.due < of.charged()),
    ("just what the ceiling leaves is charged", |of| of.due > 0 && of.charged() + of.before == of.ceiling()),
    ("nothing is due at the ceiling", |of| of.charged() > 0 && of.before == of.ceiling() && of.before > 0),
    ("nothing is due, as the ceiling is below the amount", |of| of.charged() > 0 && of.before > of.ceiling()),
    ("the ceiling is one below the amount", |of| of.charged() > 0 && of.before == of.ceiling() + 1),
    ("the trip costs nothing", |of| of.charged() == 0 && of.ceiling() > of.before),
    ("a ceiling of 0", |of| of.ceiling() == 0 && of.charged() > 0),
    ("a ceiling of 1,000,000", |of| of.ceiling() == MOST),
    ("a ceiling of 1,000,000, reached", |of| of.ceiling() == MOST && of.due > 0 && of.before + of.due == MOST),
    ("an amount of 1,000,000 kept", |of| of.before == MOST),
    ("an amount of 1,000,000 kept, of another month", |of| of.kept.amount == MOST && of.before == 0),
    ("something was collected before in the month", |of| of.before > 0 && of.due > 0),
    ("the month before is kept", |of| of.kept.month + 1 == of.month() && of.kept.amount > 0),
    ("an earlier month is kept", |of| of.kept.month + 1 < of.month() && of.kept.amount > 0),
    ("a later month is kept", |of| of.kept.month > of.month() && of.kept.amount > 0),
    ("a month is kept that no trip has", |of| of.kept.month >= 1_200),
    ("a month is kept that agrees in its lowest byte", |of| {
        of.kept.month != of.month() && of.kept.month % 256 == of.month() % 256
    }),
    ("another month's amount is above the ceiling", |of| {
        of.kept.month != of.month() && of.kept.amount > of.ceiling() && of.due > 0
    }),
    ("the first month there is", |of| of.month() == 0),
    ("the last month there is", |of| of.month() == 1_199),
    ("a month's first minute", |of| of.check_in > 0 && month_of(of.check_in - 1) != of.month()),
    ("a month's last minute", |of| month_of(of.check_in + 1) != of.month()),
    ("a year's last minute", |of| month_of(of.check_in + 1) != of.month() && of.month() % 12 == 11),
    ("the end of February in a leap year", |of| month_of(of.check_in + 1) != of.month() && of.month() % 48 == 1),
    ("by the clock the next month, with offset 1", |of| of.is_ahead(1)),
    ("by the clock the next month, with offset 2", |of| of.is_ahead(2)),
    ("by the clock the next month, the amount goes on", |of| (of.is_ahead(1) || of.is_ahead(2)) && of.before > 0),
    ("the check-out is in the next month", |of| of.ends_in_the_next_month()),
    ("broken, the check-out in the next month", |of| of.is_broken() && of.ends_in_the_next_month()),
    ("broken, more is due than the first record's", |of| of.is_broken() && of.due > of.charges[0]),
    ("broken, cut in its second record", |of| of.is_broken() && of.due > of.charges[0] && of.due < of.charged()),
    ("broken, cut in its first record", |of| of.is_broken() && of.due > 0 && of.due < of.charges[0]),
    ("bicycles among the charges", |of| of.trip.bicycles > 0 && of.due > 0),
    ("in a window of the month before", |of| {
        let opening = word(&of.call.case.book, OPENING);
        word(&of.call.case.book, TRIPS) > 0 && opening + 1_440 > of.check_out && month_of(opening) + 1 == of.month()
    }),
    ("just 4 bytes for what is due", |of| of.call.due == DUE_BYTES),
    ("more than 4 bytes for what is due", |of| of.call.due > DUE_BYTES),
];

/// Of a refusal: a cause or a circumstance, in words, and whether it is that of the call.
type Way = (usize, &'static str, fn(&MonthCase) -> bool);

const REFUSED: [Way; 20] = [
    (24, "a ceiling of 1,000,001 alone", |call| call.ceiling == 1_000_001 && causes(call) == [true, false, false]),
    (24, "a larger ceiling alone", |call| call.ceiling > 1_000_001 && causes(call) == [true, false, false]),
    (24, "an amount of 1,000,001 alone", |call| {
        causes(call) == [false, true, false] && Kept::read(&call.kept).is_some_and(|kept| kept.amount == MOST + 1)
    }),
    (24, "a larger amount alone", |call| {
        causes(call) == [false, true, false] && Kept::read(&call.kept).is_some_and(|kept| kept.amount > MOST + 1)
    }),
    (24, "too large an amount of another month", |call| {
        causes(call)[1] && call.month() != Kept::read(&call.kept).map(|kept| kept.month)
    }),
    (24, "a pair a byte shorter alone", |call| {
        call.kept.len() == KEPT_BYTES - 1 && causes(call) == [false, false, true]
    }),
    (24, "a pair a byte longer alone", |call| {
        call.kept.len() == KEPT_BYTES + 1 && causes(call) == [false, false, true]
    }),
    (24, "no byte of a pair", |call| call.kept.is_empty()),
    (24, "the tariff has a fault, too", |call| check_tariff(&call.case.tariff).is_err()),
    (24, "there is no room, either", |call| call.due < DUE_BYTES || call.case.room == 0),
    (12, "no byte for what is due", |call| call.due == 0 && has_room(call)),
    (12, "1 byte for what is due", |call| call.due == 1 && has_room(call)),
    (12, "2 bytes for what is due", |call| call.due == 2 && has_room(call)),
    (12, "3 bytes for what is due", |call| call.due == 3 && has_room(call)),
    (12, "the statement alone is too short", |call| call.due >= DUE_BYTES),
    (12, "no room for either", |call| call.due < DUE_BYTES && call.case.room == 0),
    (1, "no room for what is due, too", |call| call.due < DUE_BYTES),
    (4, "no room for what is due, too", |call| call.due < DUE_BYTES),
    (10, "no room for what is due, too", |call| call.due < DUE_BYTES),
    (11, "no room for what is due, too", |call| call.due < DUE_BYTES),
];

/// Those of 24: the ceiling, the amount, the length.
fn causes(call: &MonthCase) -> [bool; 3] {
    let kept = Kept::read(&call.kept);
    [u64::from(call.ceiling) > MOST, kept.as_ref().is_some_and(|kept| kept.amount > MOST), kept.is_none()]
}

/// Whether the statement has room for any trip.
fn has_room(call: &MonthCase) -> bool {
    call.case.room >= LARGEST_STATEMENT
}

/// What a call met, in words: of what an accepted one may meet, or of the ways to its refusal.
pub fn met(call: &MonthCase, left: &Left) -> Vec<&'static str> {
    match left.answer {
        Ok(written) => {
            let of = Accepted::of(call, left, written);
            ACCEPTED.iter().filter(|(_, is_so)| is_so(&of)).map(|(way, _)| *way).collect()
        }
        Err(refusal) => {
            let ways = REFUSED.iter().filter(|(number, ..)| *number == refusal.number as usize);
            ways.filter(|(.., is_so)| is_so(call)).map(|(_, way, _)| *way).collect()
        }
    }
}

#[derive(Default)]
pub struct Months {
    /// Those that were accepted at 0, and those refused by number.
    answers: [u64; NUMBERS],
    accepted: Vec<u64>,
    refused: Vec<u64>,
}

impl Months {
    pub fn count(&mut self, call: &MonthCase, left: &Left) {
        self.accepted.resize(ACCEPTED.len(), 0);
        self.refused.resize(REFUSED.len(), 0);
        match left.answer {
            Ok(written) => {
                self.answers[0] += 1;
                let of = Accepted::of(call, left, written);
                for (count, (_, is_so)) in self.accepted.iter_mut().zip(ACCEPTED) {
                    *count += u64::from(is_so(&of));
                }
            }
            Err(refusal) => {
                self.answers[refusal.number as usize] += 1;
                for (count, (number, _, is_so)) in self.refused.iter_mut().zip(REFUSED) {
                    *count += u64::from(number == refusal.number as usize && is_so(call));
                }
            }
        }
    }

    pub fn calls(&self) -> u64 {
        self.answers.iter().sum()
    }

    /// What was not met at all.
    pub fn too_few(&self) -> Vec<String> {
        let told = |number: usize, what| format!("under a ceiling, {number}, {what}");
        let answers = due().filter(|&number| self.answers[number] == 0).map(|number| told(number, "in any way"));
        let accepted = ACCEPTED.iter().zip(&self.accepted).filter(|(_, &count)| count == 0);
        let refused = REFUSED.iter().zip(&self.refused).filter(|(_, &count)| count == 0);
        let ways = refused.map(|((number, way, _), _)| told(*number, way));
        answers.chain(accepted.map(|((way, _), _)| told(0, way))).chain(ways).collect()
    }
}

/// The answers that have to be met: 0 for acceptance, 24, and settling's refusals.
fn due() -> impl Iterator<Item = usize> {
    [0, 24].into_iter().chain(Named::of_settling().map(|refusal| refusal as usize))
}

impl fmt::Display for Months {
    fn fmt(&self, out: &mut fmt::Formatter) -> fmt::Result {
        writeln!(out, "calls under a ceiling {}; one may be of several kinds", self.calls())?;
        writeln!(out, "  {:>8}  accepted", self.answers[0])?;
        for ((way, _), count) in ACCEPTED.iter().zip(&self.accepted) {
            writeln!(out, "  {count:>8}    {way}")?;
        }
        for given in due().skip(1) {
            let text = Named::of(given as u64).map_or("", Named::text);
            writeln!(out, "  {:>8}  refused by {given} ({text})", self.answers[given])?;
            let ways = REFUSED.iter().zip(&self.refused).filter(|(way, _)| way.0 == given);
            for ((_, way, _), count) in ways {
                writeln!(out, "  {count:>8}    {way}")?;
            }
        }
        Ok(())
    }
}
