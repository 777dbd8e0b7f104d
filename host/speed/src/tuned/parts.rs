//! A trip's way from stop to stop, and the parts in which it is charged: one, or two where it is broken.

use super::numbers::{four, two};
use super::tariff::{Stop, Tariff, CITY};
use super::Minutes;

/// A trip's way. What its parts need is found as its stops are read.
pub struct Way<'a> {
    first: &'a Stop,
    last: &'a Stop,
    /// The change farthest from the first stop, the first of equals; where there is none, the first stop.
    change: &'a Stop,
    /// dx² + dy² from the first stop to that change; where there is none, −1.
    square: i64,
    /// A bit for each area of the stops up to that change, and of those from it on. The two together are those of all.
    out: u32,
    back: u32,
}

/// What is priced and charged as a trip of its own.
#[derive(Clone, Copy)]
pub struct Part {
    pub area: usize,
    /// dx² + dy² from its first stop to its last.
    pub square: i64,
    /// 0 until the duration is put there; of a second part 0.
    pub minutes: Minutes,
}

/// The parts of a trip.
pub struct Parts {
    /// The first one, or the only one, has the trip's duration.
    pub first: Part,
    /// Where the trip is broken.
    pub second: Option<Part>,
}

impl Parts {
    /// How many there are.
    #[inline(always)]
    pub fn many(&self) -> usize {
        1 + usize::from(self.second.is_some())
    }

    /// Whether the area of one of them is a marked town. Few trips are in first class: it stands out of the way.
    #[inline(never)]
    pub fn lie_in_a_marked_town(&self, tariff: &Tariff) -> bool {
        tariff.is_marked_town(self.first.area) || self.second.is_some_and(|part| tariff.is_marked_town(part.area))
    }
}

impl<'a> Way<'a> {
    /// The way through the stops of these numbers, or nothing where the tariff lacks one.
    #[inline(always)]
    pub fn through(numbers: &[[u8; 2]], stops: &'a [Stop]) -> Option<Way<'a>> {
        let (first, further) = numbers.split_first()?;
        let (last, changes) = further.split_last()?;
        let stop_of = |number| stops.get(two(number, 0) as usize);
        let (first, last) = (stop_of(first)?, stop_of(last)?);
        let mut so_far = area_bit(first);
        let mut way = Way { first, last, change: first, square: -1, out: so_far, back: 0 };
        for number in changes {
            let stop = stop_of(number)?;
            let (bit, square) = (area_bit(stop), square(first, stop));
            so_far |= bit;
            way.back |= bit;
            if square > way.square {
                way = Way { change: stop, square, out: so_far, back: bit, ..way };
            }
        }
        way.back |= area_bit(last);
        Some(way)
    }

    /// The parts of a trip on this way.
    #[inline(always)]
    pub fn parts(&self, tariff: &Tariff) -> Parts {
        let area = tariff.smallest_containing(self.out | self.back);
        let square = square(self.first, self.last);
        // No factor is below 1: most trips are not broken whatever it is. Both are 0 where a change has led nowhere.
        if (self.square > square || self.square | square == 0) && self.is_broken(tariff, area, square) {
            return self.broken(tariff);
        }
        Parts { first: Part { area, square, minutes: 0 }, second: None }
    }

    /// Whether a trip of this area is broken at its farthest change, of which it has one; `square` is from its first
    /// stop to its last.
    #[inline(always)]
    fn is_broken(&self, tariff: &Tariff, area: usize, square: i64) -> bool {
        let (factor, is_marked) = tariff.factor_for(area);
        let is_kept = is_marked && tariff.area(area)[4] == CITY;
        !is_kept && (square == 0 || self.square > factor * factor * square)
    }

    #[inline(always)]
    fn broken(&self, tariff: &Tariff) -> Parts {
        let first = Part { area: tariff.smallest_containing(self.out), square: self.square, minutes: 0 };
        let square = square(self.change, self.last);
        let second = Part { area: tariff.smallest_containing(self.back), square, minutes: 0 };
        Parts { first, second: Some(second) }
    }
}

#[inline(always)]
fn area_bit(stop: &Stop) -> u32 {
    1 << (stop[4] % 32)
}

/// dx² + dy².
#[inline(always)]
fn square(one: &Stop, other: &Stop) -> i64 {
    let dx = i64::from(four(one, 5)) - i64::from(four(other, 5));
    let dy = i64::from(four(one, 9)) - i64::from(four(other, 9));
    dx * dx + dy * dy
}
