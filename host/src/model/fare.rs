//! Kilometres, and the price: in four steps, or as an area of kind 8 has it.

use super::parts::Part;
use super::tariff::{Area, Kind, Stop, Tariff, Town, TripCap};
use super::trip::Trip;
use super::{Cents, Km, Minutes};

/// What the price of a part of a trip depends on.
#[derive(Clone, Debug, PartialEq, Eq)]
pub struct Ride {
    pub area: usize,
    pub km: Km,
    pub minutes: Minutes,
    pub class: u64,
    pub ticket_level: u64,
}

impl Ride {
    /// The area looks at all stops of the part, the kilometres at the first and the last. Class and level are the
    /// trip's.
    pub fn of(tariff: &Tariff, trip: &Trip, part: &Part) -> Ride {
        let (first, last) = (part.stops[0], part.stops[part.stops.len() - 1]);
        Ride {
            area: tariff.area_of_stops(&part.stops),
            km: kilometres(&tariff.stops[first], &tariff.stops[last]),
            minutes: part.minutes,
            class: trip.class,
            ticket_level: trip.ticket_level,
        }
    }
}

/// The least k with dx² + dy² ≤ (1,000k)².
pub fn kilometres(first: &Stop, last: &Stop) -> Km {
    let mut k = 0;
    while squared_distance(first, last) > (1_000 * k) * (1_000 * k) {
        k += 1;
    }
    k
}

/// dx² + dy², in square metres.
pub fn squared_distance(one: &Stop, other: &Stop) -> u64 {
    let dx = one.x.abs_diff(other.x);
    let dy = one.y.abs_diff(other.y);
    dx * dx + dy * dy
}

/// The price of the holder and of each adult carried. `area` is the ride's own.
pub fn price(area: &Area, ride: &Ride) -> Cents {
    let by_distance = step_1(area, ride);
    match area.kind {
        // Steps 1 to 3.
        Kind::Common => {
            let capped = step_2(area, ride, by_distance);
            step_3(area, ride, capped)
        }
        Kind::Aachen { .. } => compared_or_raised(area, ride, &area.trip_cap, by_distance),
    }
}

/// The price of a child.
pub fn child_price(area: &Area, ride: &Ride) -> Cents {
    match &area.kind {
        // Step 4, from step 3.
        Kind::Common => reduced_for_children(area, price(area, ride)),
        // From step 1.
        Kind::Aachen { child_ticket, .. } => {
            let reduced = reduced_for_children(area, step_1(area, ride));
            compared_or_raised(area, ride, child_ticket, reduced)
        }
    }
}

/// Base price × periods + km price × km; a marked town drops one of the two.
fn step_1(area: &Area, ride: &Ride) -> Cents {
    let base = area.base_price * periods(ride.minutes, area.base_validity);
    let distance = area.price_per_km * ride.km;
    match area.town() {
        Town::Unmarked => base + distance,
        Town::BaseDropped => distance,
        Town::KmDropped => base,
    }
}

/// Duration ÷ validity rounded up, at least 1.
fn periods(duration: Minutes, validity: Minutes) -> u64 {
    duration.div_ceil(validity).max(1)
}

/// The smaller of that and the trip cap.
fn step_2(area: &Area, ride: &Ride, amount: Cents) -> Cents {
    compared(ride, &area.trip_cap, amount)
}

/// In an area of kind 8. Class 2: compared with the trip cap or the child ticket, unless the area is a marked town.
/// Class 1: with the surcharge, and not compared.
fn compared_or_raised(area: &Area, ride: &Ride, ticket: &TripCap, amount: Cents) -> Cents {
    match ride.class {
        1 => raised_for_first_class(area, amount),
        _ if area.is_marked_town() => amount,
        _ => compared(ride, ticket, amount),
    }
}

/// The smaller of that and the cap, where it applies.
fn compared(ride: &Ride, cap: &TripCap, amount: Cents) -> Cents {
    amount_of(ride, cap).map_or(amount, |cap| amount.min(cap))
}

/// What applies of a trip cap or a child ticket, if anything: a flat one up to its minutes, one by level as the ticket says.
fn amount_of(ride: &Ride, cap: &TripCap) -> Option<Cents> {
    match *cap {
        TripCap::None => None,
        TripCap::Flat { amount, minutes } => (ride.minutes <= minutes).then_some(amount),
        TripCap::ByLevel { k, a, b, c, d } => match ride.ticket_level {
            0 => None,
            1 => Some(k),
            2 => Some(a),
            3 => Some(b),
            4 => Some(c),
            5 => Some(d),
            _ => unreachable!("refused with 6"),
        },
    }
}

/// Class 1: with the surcharge. Class 2: unchanged.
fn step_3(area: &Area, ride: &Ride, amount: Cents) -> Cents {
    match ride.class {
        1 => raised_for_first_class(area, amount),
        _ => amount,
    }
}

/// × (100 + surcharge) ÷ 100, rounded up.
pub fn raised_for_first_class(area: &Area, amount: Cents) -> Cents {
    per_cent_of(100 + area.surcharge, amount)
}

/// × (100 − reduction) ÷ 100, rounded up.
pub fn reduced_for_children(area: &Area, amount: Cents) -> Cents {
    per_cent_of(100 - area.reduction, amount)
}

fn per_cent_of(per_cent: u64, amount: Cents) -> Cents {
    (amount * per_cent).div_ceil(100)
}
