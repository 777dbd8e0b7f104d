//! What readings came to: how many records were told, by what is in them, and how many were refused, by number and cause.

use super::readings::{fields_in, LARGEST_FIELDS, SECOND, SETTLED};
use super::statements::Asked;
use crate::answer::Refusal as Named;
use crate::model::reading::{fields_of, RANGES};
use crate::model::record::{record_at, Record, KIND_CHARGE, KIND_CHARGES_ALONE};
use crate::model::Refusal;
use crate::numbers::number;
use std::fmt;

/// A number, 0 where the record was told: a way in which it comes about, and whether it is that of what was asked. One may
/// be of several.
type Way = (usize, &'static str, fn(&Asked) -> bool);

const WAYS: [Way; 25] = [
    (0, "kind 4", |asked| fields_in(asked).is_some_and(|fields| fields.kind() == KIND_CHARGES_ALONE)),
    (0, "kind 4 with 31 charges", |asked| {
        fields_in(asked).is_some_and(|fields| fields.party.is_none() && fields.charges.len() == 31)
    }),
    (0, "kind 6", |asked| fields_in(asked).is_some_and(|fields| fields.kind() == KIND_CHARGE)),
    (0, "kind 6 with 31 charges", |asked| {
        fields_in(asked).is_some_and(|fields| fields.party.is_some() && fields.charges.len() == 31)
    }),
    (0, "a charge that a cap cut", |asked| {
        fields_in(asked).is_some_and(|fields| fields.charges.iter().any(|charge| charge.reduction > 0))
    }),
    (0, SETTLED, |asked| asked.story.contains(&SETTLED)),
    (0, "written by settling, the second of two", |asked| asked.story.contains(&SECOND)),
    (0, "at an offset above 0", |asked| asked.at > 0),
    (0, "bytes behind it", |asked| record_in(asked).is_some_and(|record| record.size() < rest(asked).len())),
    (0, "fields of just enough bytes", |asked| {
        fields_in(asked).is_some_and(|fields| fields.bytes().len() == asked.room) && asked.room < LARGEST_FIELDS
    }),
    (12, "no byte", |asked| asked.room == 0),
    (12, "too few for what stands before the charges", |asked| (1..14).contains(&asked.room)),
    (12, "too few for the charges", |asked| asked.room >= 14),
    (14, "an empty rest", |asked| asked.at == asked.statement.len()),
    (14, "an offset beyond the end", |asked| asked.at > asked.statement.len()),
    (14, "fewer than 4 bytes", |asked| (1..4).contains(&rest(asked).len())),
    (14, "a length below 2", |asked| length(asked).is_some_and(|length| length < 2)),
    (14, "a length above 1,024", |asked| length(asked).is_some_and(|length| length > 1_024)),
    (14, "past the end", |asked| {
        length(asked).is_some_and(|length| (2..=1_024).contains(&length) && 2 + length > rest(asked).len())
    }),
    (15, "another kind", |asked| !is_of(asked, KIND_CHARGES_ALONE, |_| true) && !is_of(asked, KIND_CHARGE, |_| true)),
    (15, "kind 4 without a charge", |asked| is_of(asked, KIND_CHARGES_ALONE, |body| body == 9)),
    (15, "kind 4 with over 31 charges", |asked| is_of(asked, KIND_CHARGES_ALONE, |body| body > 133 && body % 4 == 1)),
    (15, "kind 4, between two numbers of charges", |asked| is_of(asked, KIND_CHARGES_ALONE, |body| body % 4 != 1)),
    (15, "kind 6 with a body under 12", |asked| is_of(asked, KIND_CHARGE, |body| body < 12)),
    (15, "kind 6, another length than its party's", |asked| is_of(asked, KIND_CHARGE, |body| body >= 12)),
];

/// What is left from the offset on.
fn rest(asked: &Asked) -> &[u8] {
    asked.statement.get(asked.at..).unwrap_or_default()
}

/// What the length field says, where there is a head.
fn length(asked: &Asked) -> Option<usize> {
    rest(asked).get(..4).map(|head| number(&head[..2]) as usize)
}

fn record_in(asked: &Asked) -> Option<Record<'_>> {
    record_at(rest(asked), 0)
}

fn is_of(asked: &Asked, kind: u64, fits: fn(usize) -> bool) -> bool {
    record_in(asked).is_some_and(|record| record.kind == kind && fits(record.body.len()))
}

#[derive(Default)]
pub struct Reads {
    /// Those that were told at 0, and those refused by number.
    numbers: [u64; 17],
    ways: [u64; WAYS.len()],
    /// What was out of range where 16 was given.
    ranges: [u64; RANGES.len()],
}

impl Reads {
    pub fn count(&mut self, asked: &Asked, answer: Result<usize, Refusal>) {
        let given = answer.err().map_or(0, |refusal| refusal.number as usize);
        self.numbers[given] += 1;
        for (count, (number, _, is_so)) in self.ways.iter_mut().zip(WAYS) {
            *count += u64::from(number == given && is_so(asked));
        }
        if given == 16 {
            let fields = record_in(asked).and_then(|record| fields_of(&record)).expect("its shape is right");
            for (count, (_, is_out)) in self.ranges.iter_mut().zip(RANGES) {
                *count += u64::from(is_out(&fields));
            }
        }
    }

    pub fn calls(&self) -> u64 {
        self.numbers.iter().sum()
    }

    /// The refusals that fewer than 1 % of the refused readings ended in, and the ways that were not met.
    pub fn too_few(&self) -> Vec<String> {
        let refused: u64 = self.numbers[1..].iter().sum();
        let few = [12, 14, 15, 16].into_iter().filter(|&number| self.numbers[number] * 100 < refused.max(1));
        let mut all: Vec<String> = few.map(|number| format!("readings refused by {number}")).collect();
        all.extend(
            self.causes().filter(|cause| cause.2 == 0).map(|(number, way, _)| format!("readings, {number}, {way}")),
        );
        all
    }

    /// Each number with its ways and their counts.
    fn causes(&self) -> impl Iterator<Item = (usize, &'static str, u64)> + '_ {
        let ways = WAYS.into_iter().zip(self.ways).map(|((number, way, _), count)| (number, way, count));
        ways.chain(RANGES.into_iter().zip(self.ranges).map(|((name, _), count)| (16, name, count)))
    }
}

impl fmt::Display for Reads {
    fn fmt(&self, out: &mut fmt::Formatter) -> fmt::Result {
        writeln!(out, "readings {}; accepted {}; one may be of several kinds", self.calls(), self.numbers[0])?;
        for given in [0, 14, 15, 16, 12] {
            if let Some(refusal) = Named::of(given as u64) {
                writeln!(out, "  {:>8}  refused by {given} ({})", self.numbers[given], refusal.text())?;
            }
            for (_, way, count) in self.causes().filter(|cause| cause.0 == given) {
                writeln!(out, "  {count:>8}    {way}")?;
            }
        }
        Ok(())
    }
}
