//! The trip record.

use super::clock::Stamp;
use super::record::{record_at, Fields, KIND_TRIP};
use super::Minutes;
use std::ops::RangeInclusive;

pub const CLASSES: RangeInclusive<u64> = 1..=2;
/// 0 none, 1 = K to 5 = D.
pub const TICKET_LEVELS: RangeInclusive<u64> = 0..=5;
/// Adults, children and bicycles, of each.
pub const CARRIED: RangeInclusive<usize> = 0..=10;
pub const STOPS_IN_A_TRIP: RangeInclusive<usize> = 2..=32;
/// From so many minutes on a trip may stay at one stop.
const NO_MISTAP: Minutes = 3;

/// The body before the stops.
const BODY_HEAD: usize = 20;
/// Where the body holds n.
const STOPS_FIELD: usize = 19;

#[derive(Clone, Debug, PartialEq, Eq)]
pub struct Trip {
    pub check_in: Stamp,
    pub check_out: Stamp,
    pub class: u64,
    /// 0 none, 1 = K to 5 = D.
    pub ticket_level: u64,
    pub adults: usize,
    pub children: usize,
    pub bicycles: usize,
    /// First to last.
    pub stops: Vec<usize>,
}

impl Trip {
    /// The trip, or nothing where its frame is broken, the record does not fill the slice, the kind is not 7, or the
    /// body is under 20 or not 20 + 2n.
    pub fn read(slice: &[u8]) -> Option<Trip> {
        let record = record_at(slice, 0)?;
        let body = record.body;
        let fits = record.size() == slice.len() && record.kind == KIND_TRIP && body.len() >= BODY_HEAD;
        if !fits || body.len() != BODY_HEAD + 2 * usize::from(body[STOPS_FIELD]) {
            return None;
        }
        let mut fields = Fields::of(body);
        let check_in = Stamp::read(&mut fields);
        let check_out = Stamp::read(&mut fields);
        let class = fields.next(1);
        let ticket_level = fields.next(1);
        let adults = fields.next(1) as usize;
        let children = fields.next(1) as usize;
        let bicycles = fields.next(1) as usize;
        let n = fields.next(1) as usize;
        let stops = fields.next_many(n, 2).into_iter().map(|stop| stop as usize).collect();
        Some(Trip { check_in, check_out, class, ticket_level, adults, children, bicycles, stops })
    }

    /// Class 1 or 2, level up to 5, adults, children and bicycles up to 10 each, 2 to 32 stops.
    pub fn counts_are_in_range(&self) -> bool {
        CLASSES.contains(&self.class)
            && TICKET_LEVELS.contains(&self.ticket_level)
            && [self.adults, self.children, self.bicycles].iter().all(|carried| CARRIED.contains(carried))
            && STOPS_IN_A_TRIP.contains(&self.stops.len())
    }

    /// Whether all stops are one stop, and so many minutes are under 3. Stops are told apart by their numbers: two at one
    /// point are two.
    pub fn is_mistap(&self, duration: Minutes) -> bool {
        duration < NO_MISTAP && self.stops.iter().all(|&stop| stop == self.stops[0])
    }
}
