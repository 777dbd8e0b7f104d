//! Kilometres, and the price: in steps, or as an area of kind 8 has it.

use super::numbers::two;
use super::parts::Part;
use super::tariff::{is_aachen, AachenArea, Area, Tariff};
use super::trip::Trip;
use super::{Cents, Km, Minutes};

/// What is charged for and written down of a part.
pub struct Ride<'a> {
    pub area: usize,
    /// The area's.
    pub record: &'a Area,
    pub km: Km,
    pub minutes: Minutes,
    /// Step 1.
    by_distance: Cents,
    /// Of the holder and of each adult carried.
    pub price: Cents,
}

impl<'a> Ride<'a> {
    #[inline(always)]
    pub fn of(tariff: &Tariff<'a>, trip: &Trip, &Part { area, square, minutes }: &Part) -> Ride<'a> {
        let record = tariff.area(area);
        let km = started_kilometres(square);
        let (base, distance) = (two(record, 6) * periods(minutes, two(record, 10)), two(record, 8) * km);
        if is_aachen(record) {
            let (by_distance, price) = aachen_price(tariff.aachen_area(area), trip, minutes, [base, distance]);
            return Ride { area, record, km, minutes, by_distance, price };
        }
        let by_distance = base + distance;
        let capped = by_distance.min(trip_cap(record, trip.ticket_level, minutes));
        // Steps 2 and 3.
        let price = if trip.class == 1 { raised_for_first_class(record, capped) } else { capped };
        Ride { area, record, km, minutes, by_distance, price }
    }

    /// Of each child carried: step 4, or as the area of kind 8 has it.
    #[inline(always)]
    pub fn child_price(&self, tariff: &Tariff, trip: &Trip) -> Cents {
        if is_aachen(self.record) {
            let reduced = reduced_for_children(self.record, self.by_distance);
            compared_or_raised::<29>(tariff.aachen_area(self.area), trip, self.minutes, reduced)
        } else {
            reduced_for_children(self.record, self.price)
        }
    }
}

/// The least k whose 1,000 k metres, squared, are not below this. The root's error is far below a metre, so that the
/// number of kilometres nearest to it is k, or one less.
#[inline(always)]
pub fn started_kilometres(square: i64) -> Km {
    // Above 2^52 a number has no fraction: the nearest whole one stands in its lowest bits.
    let nearest = ((square as f64).sqrt() * 0.001 + (1u64 << 52) as f64).to_bits() as u32;
    let metres = 1_000 * i64::from(nearest);
    nearest + u32::from(metres * metres < square)
}

/// Duration ÷ validity rounded up, at least 1; for most trips no division is needed.
#[inline(always)]
fn periods(duration: Minutes, validity: Minutes) -> u32 {
    if duration <= validity {
        1
    } else {
        duration.div_ceil(validity.max(1))
    }
}

/// Step 1, of which a marked town drops a half, and the adults' price.
#[inline(always)]
fn aachen_price(area: &AachenArea, trip: &Trip, minutes: Minutes, [base, distance]: [Cents; 2]) -> (Cents, Cents) {
    let by_distance = match area[41] {
        0 => base + distance,
        1 => distance,
        _ => base,
    };
    (by_distance, compared_or_raised::<15>(area, trip, minutes, by_distance))
}

/// In class 2 compared with the trip cap or the child ticket whose fields begin here, unless the area is a marked town; in
/// class 1 raised, and not compared.
#[inline(always)]
fn compared_or_raised<const FIELDS: usize>(area: &AachenArea, trip: &Trip, minutes: Minutes, amount: Cents) -> Cents {
    let common = area.first_chunk().expect("the bytes of both kinds");
    if trip.class == 1 {
        return raised_for_first_class(common, amount);
    }
    // The minutes are the trip cap's in both cases.
    let cap = match common[14] {
        _ if area[41] != 0 => Cents::MAX,
        1 if minutes <= two(common, 17) => two(area, FIELDS),
        2 if trip.ticket_level != 0 => two(area, FIELDS - 2 + 2 * (trip.ticket_level % 8)),
        _ => Cents::MAX,
    };
    amount.min(cap)
}

/// The trip cap that applies; no price is larger than the one that stands for none.
#[inline(always)]
fn trip_cap(area: &Area, ticket_level: usize, minutes: Minutes) -> Cents {
    match area[14] {
        1 if minutes <= two(area, 17) => two(area, 15),
        2 if ticket_level != 0 => two(area, 13 + 2 * (ticket_level % 8)),
        _ => Cents::MAX,
    }
}

/// × (100 + surcharge) ÷ 100, rounded up.
#[inline(always)]
pub fn raised_for_first_class(area: &Area, amount: Cents) -> Cents {
    hundredths(amount * (100 + u32::from(area[12])))
}

/// × (100 − reduction) ÷ 100, rounded up.
#[inline(always)]
pub fn reduced_for_children(area: &Area, amount: Cents) -> Cents {
    hundredths(amount * (100 - u32::from(area[13])))
}

/// ÷ 100, rounded up: no amount is so large that 99 could not be added first.
#[inline(always)]
fn hundredths(amount: u32) -> Cents {
    (amount + 99) / 100
}
