//! The charge record, and a statement of one or two.

use super::caps::{CapClass, Cut};
use super::record::{record_at, Fields, HEAD, KIND_CHARGE};
use super::trip::Trip;
use super::{Cents, Km, Minutes};
use crate::numbers::put;

/// The body before the charges, and in it where the numbers of adults, children and bicycles stand.
const BODY_HEAD: usize = 12;
const PARTY: usize = 9;
/// For each person: charge, reduction, and the cap's area and class.
const PERSON: usize = 10;
const BICYCLE: usize = 4;

/// The bytes of a record of so many persons and bicycles.
const fn size_for(persons: usize, bicycles: usize) -> usize {
    HEAD + BODY_HEAD + PERSON * persons + BICYCLE * bicycles
}

/// Room for the two charge records of a broken trip, each with 21 persons and 10 bicycles.
pub const LARGEST_STATEMENT: usize = 2 * size_for(21, 10);

/// What a record has for no cap: area, class.
const NO_CAP: (u64, u64) = (255, 0);

/// The charge record.
#[derive(Clone, Debug, PartialEq, Eq)]
pub struct ChargeRecord {
    pub opening: Minutes,
    pub area: usize,
    pub km: Km,
    pub minutes: Minutes,
    pub adults: usize,
    pub children: usize,
    pub bicycles: usize,
    /// Account holder, adults, children, bicycles.
    pub charges: Vec<Cents>,
    /// Account holder, adults, children.
    pub cuts: Vec<Cut>,
}

impl ChargeRecord {
    /// The bytes that the record of one part of this trip takes.
    pub fn size(trip: &Trip) -> usize {
        size_for(1 + trip.adults + trip.children, trip.bicycles)
    }

    pub fn bytes(&self) -> Vec<u8> {
        let mut bytes = Vec::new();
        let size = size_for(self.cuts.len(), self.bicycles);
        put(&mut bytes, 2, size as u64 - 2);
        put(&mut bytes, 2, KIND_CHARGE);
        put(&mut bytes, 4, self.opening);
        put(&mut bytes, 1, self.area as u64);
        put(&mut bytes, 2, self.km);
        put(&mut bytes, 2, self.minutes);
        for many in [self.adults, self.children, self.bicycles] {
            put(&mut bytes, 1, many as u64);
        }
        let (of_persons, of_bicycles) = self.charges.split_at(self.cuts.len());
        for (&charge, cut) in of_persons.iter().zip(&self.cuts) {
            let (area, class) = cut.cap.map_or(NO_CAP, |(area, class)| (area as u64, number_of(class)));
            put(&mut bytes, 4, charge);
            put(&mut bytes, 4, cut.reduction);
            put(&mut bytes, 1, area);
            put(&mut bytes, 1, class);
        }
        for &charge in of_bicycles {
            put(&mut bytes, 4, charge);
        }
        bytes
    }

    /// The records that stand one after another in these bytes, or nothing where something else stands there.
    pub fn read_all(bytes: &[u8]) -> Option<Vec<ChargeRecord>> {
        let mut records = Vec::new();
        let mut place = 0;
        while place < bytes.len() {
            let size = record_at(bytes, place)?.size();
            records.push(ChargeRecord::read(&bytes[place..place + size])?);
            place += size;
        }
        Some(records)
    }

    /// The record in these bytes, or nothing where they are no charge record.
    pub fn read(bytes: &[u8]) -> Option<ChargeRecord> {
        let record = record_at(bytes, 0)?;
        let body = record.body;
        if record.kind != KIND_CHARGE || body.len() < BODY_HEAD {
            return None;
        }
        let [adults, children, bicycles] = [0, 1, 2].map(|place| usize::from(body[PARTY + place]));
        let persons = 1 + adults + children;
        if record.size() != size_for(persons, bicycles) {
            return None;
        }
        let mut fields = Fields::of(body);
        let [opening, area, km, minutes, ..] = [4, 1, 2, 2, 1, 1, 1].map(|width| fields.next(width));
        let (mut charges, mut cuts) = (Vec::new(), Vec::new());
        for _ in 0..persons {
            charges.push(fields.next(4));
            cuts.push(read_cut(&mut fields)?);
        }
        charges.extend(fields.next_many(bicycles, BICYCLE));
        Some(ChargeRecord { opening, area: area as usize, km, minutes, adults, children, bicycles, charges, cuts })
    }

    /// The sum of the record's charges.
    pub fn total(&self) -> Cents {
        self.charges.iter().sum()
    }
}

/// The record's number for what a cap counts.
pub fn number_of(class: CapClass) -> u64 {
    match class {
        CapClass::SecondClass => 2,
        CapClass::AllClasses => 1,
    }
}

/// Reduction, area and class; no cap exactly where the reduction is 0.
fn read_cut(fields: &mut Fields) -> Option<Cut> {
    let [reduction, area, class] = [4, 1, 1].map(|width| fields.next(width));
    let cap = match (area, class) {
        NO_CAP => None,
        (_, 2) => Some((area as usize, CapClass::SecondClass)),
        (_, 1) => Some((area as usize, CapClass::AllClasses)),
        _ => return None,
    };
    (cap.is_some() == (reduction != 0)).then_some(Cut { reduction, cap })
}
