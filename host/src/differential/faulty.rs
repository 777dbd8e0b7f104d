//! The area record at which a tariff is refused, field by field.

use super::cases::Case;
use super::fields::OPENING;
use crate::model::read_file;
use crate::model::record::{record_at, Record, KIND_AACHEN_AREA, KIND_AREA, KIND_EDITION};
use crate::numbers::number;

/// The record at which a tariff is refused, an area.
pub struct Faulty<'a> {
    tariff: &'a [u8],
    /// Where the first area of its edition begins.
    pub first: usize,
    pub place: usize,
    pub record: Record<'a>,
}

impl<'a> Faulty<'a> {
    pub fn is(&self, kind: u64, body: usize) -> bool {
        self.record.kind == kind && self.record.body.len() == body
    }

    /// Of those whose body is as long as it has to be.
    pub fn is_aachen(&self) -> bool {
        self.is(KIND_AACHEN_AREA, 38)
    }

    pub fn level(&self) -> u8 {
        self.record.body[0]
    }

    /// The region that a city says it is in, if it stands before the city.
    pub fn region(&self) -> Option<Record<'a>> {
        let mut place = self.first;
        for _ in 0..self.record.body[1] {
            place += record_at(self.tariff, place)?.size();
        }
        let is_city = self.level() == 2 && place < self.place;
        record_at(self.tariff, place).filter(|above| is_city && above.body[0] == 1)
    }

    pub fn sort(&self) -> u8 {
        self.record.body[10]
    }

    pub fn tickets(&self) -> [u64; 5] {
        [25, 27, 29, 31, 33].map(|place| number(&self.record.body[place..place + 2]))
    }

    pub fn bicycle_price(&self) -> u64 {
        number(&self.record.body[35..37])
    }

    pub fn mark(&self) -> u8 {
        self.record.body[37]
    }
}

/// Whether the tariff's first faulty record is a whole area, and one like this.
pub fn is_faulty(case: &Case, like: impl Fn(&Faulty) -> bool) -> bool {
    let Err(refusal) = read_file(&case.tariff) else { return false };
    let place = refusal.place as usize;
    let Some(record) = record_at(&case.tariff, place) else { return false };
    let is_area = [KIND_AREA, KIND_AACHEN_AREA].contains(&record.kind) && record.body.len() >= 25;
    let first = openings_before(&case.tariff, place).last().map_or(0, |&opening| opening + OPENING);
    is_area && like(&Faulty { tariff: &case.tariff, first, place, record })
}

/// Where the openings begin that stand before this place, up to which no record is faulty.
pub fn openings_before(tariff: &[u8], end: usize) -> Vec<usize> {
    let (mut openings, mut place) = (Vec::new(), 0);
    while place < end {
        let record = record_at(tariff, place).expect("before the first faulty record");
        if record.kind == KIND_EDITION {
            openings.push(place);
        }
        place += record.size();
    }
    openings
}
