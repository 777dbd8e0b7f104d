//! The trip record. Refusals 5 to 9, and 17.

use super::calendar::{minutes_of, MINUTES_IN_A_DAY};
use super::numbers::{eight, four, Ranges, ANY_TWO_BYTES};
use super::parts::{Parts, Way};
use super::tariff::Tariff;
use super::{Minutes, Refusal};

/// The bytes before the stops.
const HEAD: usize = 24;
const KIND: u32 = 7;
/// From so many minutes on a trip may stay at one stop.
const NO_MISTAP: Minutes = 3;

/// Class, ticket level, adults, children, bicycles and number of stops, above two bytes of the check-out.
const COUNTS: Ranges =
    Ranges::of(&[ANY_TWO_BYTES, (8, 1, 2), (8, 0, 5), (8, 0, 10), (8, 0, 10), (8, 0, 10), (8, 2, 32)]);

pub struct Trip {
    pub check_in: Minutes,
    pub check_out: Minutes,
    /// 1 or 2.
    pub class: u64,
    /// 0 none, 1 = K to 5 = D.
    pub ticket_level: usize,
    /// Adults, children and bicycles carried, a byte each, from the lowest on.
    pub party: u32,
}

impl Trip {
    /// The trip and the numbers of its stops, or the first of the refusals 5, 6, 8, 9 and 17.
    #[inline(always)]
    pub fn read(bytes: &[u8]) -> Result<(Trip, &[[u8; 2]]), Refusal> {
        let Some((head, stops)) = bytes.split_first_chunk::<HEAD>() else {
            return Err(Refusal::new(5));
        };
        let n = u32::from(head[23]);
        if stops.len() != 2 * n as usize || four(head, 0) != KIND << 16 | (22 + 2 * n) {
            return Err(Refusal::new(5));
        }
        let counts = eight(head, 16);
        if COUNTS.above_least(counts).is_none() {
            return Err(Refusal::new(6));
        }
        let Some((check_in, check_out)) = minutes_of(eight(head, 4), eight(head, 11)) else {
            return Err(Refusal::new(8));
        };
        let (minutes, numbers) = (check_out.wrapping_sub(check_in), stops.as_chunks().0);
        if minutes > MINUTES_IN_A_DAY {
            return Err(Refusal::new(9));
        }
        if minutes < NO_MISTAP && are_one(numbers) {
            return Err(Refusal::new(17));
        }
        let trip = Trip {
            check_in,
            check_out,
            class: counts >> 16 & 0xff,
            ticket_level: head[19].into(),
            party: (counts >> 32) as u32 & 0xff_ffff,
        };
        Ok((trip, numbers))
    }

    /// The parts of the trip through the stops of these numbers, or one of the refusals 7 and 6.
    #[inline(always)]
    pub fn parts(&self, numbers: &[[u8; 2]], tariff: &Tariff) -> Result<Parts, Refusal> {
        let Some(way) = Way::through(numbers, tariff.stops) else {
            return Err(Refusal::new(7));
        };
        let mut parts = way.parts(tariff);
        if self.class == 1 && parts.lie_in_a_marked_town(tariff) {
            return Err(Refusal::new(6));
        }
        parts.first.minutes = self.check_out - self.check_in;
        Ok(parts)
    }

    #[inline(always)]
    pub fn adults(&self) -> usize {
        self.party as usize & 0xff
    }

    #[inline(always)]
    pub fn children(&self) -> usize {
        self.party as usize >> 8 & 0xff
    }

    #[inline(always)]
    pub fn bicycles(&self) -> usize {
        self.party as usize >> 16
    }
}

/// Whether these are all the same number. There are two at least.
#[cold]
#[inline(never)]
fn are_one(numbers: &[[u8; 2]]) -> bool {
    numbers.windows(2).all(|two| two[0] == two[1])
}
