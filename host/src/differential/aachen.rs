//! The kinds of rides in areas of kind 8 that the run has to meet: by level, mark and sort of trip cap, of adults and of
//! children, and what their bicycles pay.

use super::kinds::join;
use crate::model::book::Book;
use crate::model::fare::{child_price, price, Ride};
use crate::model::statement::ChargeRecord;
use crate::model::tariff::{Area, Kind, Level, Tariff, Town, TripCap};
use crate::model::trip::Trip;
use crate::model::Cents;

/// These are enough if they are met at all.
pub const RARE: [&str; 2] = ["bicycle pays nothing, its cap passed", "bicycle from a city of kind 8 to its region"];

/// Those of the price, then those of bicycles.
pub const AACHEN: [&str; 20] = [
    "kind 8, a region",
    "kind 8, a city without a mark",
    "kind 8, a town that drops the base price",
    "kind 8, a town that drops the price per kilometre",
    "kind 8 without a trip cap",
    "kind 8, price cut by a flat trip cap",
    "kind 8, price cut by a trip cap by level",
    "kind 8, child's price cut by a flat ticket",
    "kind 8, child's price cut by a ticket by level",
    "kind 8, first class above the trip cap",
    "kind 8, a child in first class above its ticket",
    "kind 8, a marked town with a trip cap or a ticket below the price",
    "bicycle pays its price per trip",
    "bicycle pays what its cap has left",
    "bicycle pays nothing, its cap full",
    RARE[0],
    RARE[1],
    "bicycle from kind 8 to the state, the whole flat",
    "bicycle in kind 8, the state covers it",
    "bicycle in kind 1, with payments in the window",
];

/// The book is the one that the part finds.
pub fn kinds_of_aachen(tariff: &Tariff, trip: &Trip, ride: &Ride, book: &Book, record: &ChargeRecord) -> Vec<bool> {
    let area = &tariff.areas[ride.area];
    let of_price = match &area.kind {
        Kind::Common => [false; 12],
        Kind::Aachen { child_ticket, town, .. } => kinds_of_price(area, child_ticket, *town, trip, ride),
    };
    let mut of_bicycles = [false; 8];
    for (bicycle, &charge) in record.charges[record.cuts.len()..].iter().enumerate() {
        join(&mut of_bicycles, &kinds_of_bicycle(tariff, ride, book, bicycle, charge));
    }
    [of_price.as_slice(), &of_bicycles].concat()
}

fn kinds_of_price(area: &Area, child_ticket: &TripCap, town: Town, trip: &Trip, ride: &Ride) -> [bool; 12] {
    // The same area in which nothing is compared; and one of the same step 1 without a mark, in which all is, or nothing.
    let bare = Area { trip_cap: TripCap::None, kind: with(area, TripCap::None, town), ..area.clone() };
    let (base_price, price_per_km) = match town {
        Town::Unmarked => (area.base_price, area.price_per_km),
        Town::BaseDropped => (0, area.price_per_km),
        Town::KmDropped => (area.base_price, 0),
    };
    let kind = with(area, child_ticket.clone(), Town::Unmarked);
    let unmarked = Area { base_price, price_per_km, kind, ..area.clone() };
    let unmarked_bare =
        Area { trip_cap: TripCap::None, kind: with(area, TripCap::None, Town::Unmarked), ..unmarked.clone() };
    let second = Ride { class: 2, ..ride.clone() };
    let is_second = ride.class == 2;
    let adult_above = price(&unmarked, &second) < price(&unmarked_bare, &second);
    let child_above = trip.children > 0 && child_price(&unmarked, &second) < child_price(&unmarked_bare, &second);
    let adult_cut = price(area, ride) < price(&bare, ride);
    let child_cut = trip.children > 0 && child_price(area, ride) < child_price(&bare, ride);
    let is_flat = matches!(area.trip_cap, TripCap::Flat { .. });
    let is_marked = area.is_marked_town();
    [
        area.level == Level::Region,
        area.level == Level::City && !is_marked,
        town == Town::BaseDropped,
        town == Town::KmDropped,
        area.trip_cap == TripCap::None,
        adult_cut && is_flat,
        adult_cut && !is_flat,
        child_cut && is_flat,
        child_cut && !is_flat,
        !is_second && adult_above,
        !is_second && child_above,
        is_marked && (adult_above || child_above),
    ]
}

/// The area's kind with another ticket and another mark.
fn with(area: &Area, child_ticket: TripCap, town: Town) -> Kind {
    match area.kind {
        Kind::Common => Kind::Common,
        Kind::Aachen { bicycle_price, .. } => Kind::Aachen { child_ticket, bicycle_price, town },
    }
}

fn kinds_of_bicycle(tariff: &Tariff, ride: &Ride, book: &Book, bicycle: usize, charge: Cents) -> [bool; 8] {
    let old = book.covering_area(bicycle);
    let covering = old.map_or(ride.area, |old| tariff.smallest_containing(&[old, ride.area]));
    let (area, paid) = (&tariff.areas[covering], book.payments(bicycle));
    let (is_in_aachen, was_in_aachen) =
        (tariff.areas[ride.area].is_aachen(), old.is_some_and(|old| tariff.areas[old].is_aachen()));
    // 0 where the covering area is of kind 1.
    let per_trip = match area.kind {
        Kind::Common => 0,
        Kind::Aachen { bicycle_price, .. } => bicycle_price,
    };
    [
        charge != 0 && charge == per_trip,
        charge != 0 && charge < per_trip,
        per_trip != 0 && paid == area.bicycle_flat,
        per_trip != 0 && paid > area.bicycle_flat,
        area.is_aachen() && old.is_some_and(|old| old != covering),
        !area.is_aachen() && was_in_aachen && charge != 0,
        is_in_aachen && old == Some(0),
        !is_in_aachen && !area.is_aachen() && paid != 0,
    ]
}
