//! Windows, charges and bicycles.

use super::book::Book;
use super::caps::{caps_of, Cap, Cut};
use super::clock::MINUTES_IN_A_DAY;
use super::editions::File;
use super::fare::{child_price, price, Ride};
use super::tariff::{Kind, Tariff};
use super::trip::Trip;
use super::{Cents, Minutes};

/// The book as the trip finds it: that of the open window if the trip belongs to it, else that of the next window, which
/// opens at the trip's check-in under the edition that is then in force, with all sums, bicycles and payments back to none.
/// Nothing where no edition is in force then.
pub fn window_for(book: Book, file: &File, check_in: Minutes, check_out: Minutes) -> Option<Book> {
    let is_open = book.trips() != 0;
    if is_open && check_out <= book.opening() + MINUTES_IN_A_DAY {
        Some(book)
    } else {
        file.in_force(check_in).map(|edition| Book::opened_at(check_in, edition))
    }
}

/// The account holder, or someone carried.
#[derive(Clone, Copy, Debug, PartialEq, Eq)]
pub struct Rider {
    pub number: usize,
    pub is_child: bool,
}

/// The holder, the adults, the children: those carried are always those numbered from 1.
pub fn riders_of(trip: &Trip) -> Vec<Rider> {
    let holder = [Rider { number: 0, is_child: false }];
    let adults = (0..trip.adults).map(|i| Rider { number: 1 + i, is_child: false });
    let children = (0..trip.children).map(|i| Rider { number: 11 + i, is_child: true });
    holder.into_iter().chain(adults).chain(children).collect()
}

/// What a part of a trip costs its party.
pub struct Costs {
    /// In the record's order: account holder, adults, children, bicycles.
    pub charges: Vec<Cents>,
    /// One for each person, in the same order. Bicycles have none.
    pub cuts: Vec<Cut>,
}

/// The costs of a part of the trip. Each charge is posted in the book.
pub fn costs_of(tariff: &Tariff, trip: &Trip, ride: &Ride, book: &mut Book) -> Costs {
    let (mut charges, mut cuts) = (Vec::new(), Vec::new());
    for rider in riders_of(trip) {
        let (charge, cut) = rider_charge(tariff, ride, book, rider);
        add_charge(tariff, ride, book, rider, charge);
        charges.push(charge);
        cuts.push(cut);
    }
    for bicycle in 0..trip.bicycles {
        let covering_area = new_covering_area(tariff, ride, book, bicycle);
        let charge = bicycle_charge(tariff, book, bicycle, covering_area);
        if tariff.areas[covering_area].is_aachen() {
            book.add_payment(bicycle, charge);
        }
        book.set_covering_area(bicycle, covering_area);
        charges.push(charge);
    }
    Costs { charges, cuts }
}

/// The smallest of the price and what each of the ride's caps has left; and what was taken off the price by which cap.
fn rider_charge(tariff: &Tariff, ride: &Ride, book: &Book, rider: Rider) -> (Cents, Cut) {
    let own_area = &tariff.areas[ride.area];
    let price = if rider.is_child { child_price(own_area, ride) } else { price(own_area, ride) };
    let caps = caps_of(tariff, ride, book, rider);
    let charge = caps.iter().map(Cap::left).fold(price, Cents::min);
    (charge, Cut::of(price, charge, &caps))
}

/// The charge goes to the trip's area and every area above, capped or not: to the sum of all classes, and in class 2
/// to that of second class as well.
fn add_charge(tariff: &Tariff, ride: &Ride, book: &mut Book, rider: Rider, charge: Cents) {
    for area in tariff.area_and_those_above(ride.area) {
        book.add_to_all_classes(rider.number, area, charge);
        if ride.class == 2 {
            book.add_to_second_class(rider.number, area, charge);
        }
    }
}

/// The smallest containing the trip's area and the bicycle's old covering area, if any.
fn new_covering_area(tariff: &Tariff, ride: &Ride, book: &Book, bicycle: usize) -> usize {
    match book.covering_area(bicycle) {
        None => ride.area,
        Some(old) => tariff.smallest_containing(&[ride.area, old]),
    }
}

/// The new covering area decides. Of kind 1: its flat less the old one's. Of kind 8: its price per trip, or what its cap has
/// left over the bicycle's payments in the window, if that is less; 0 if passed already.
fn bicycle_charge(tariff: &Tariff, book: &Book, bicycle: usize, new_covering_area: usize) -> Cents {
    let area = &tariff.areas[new_covering_area];
    match area.kind {
        Kind::Common => area.bicycle_flat - old_flat(tariff, book, bicycle),
        Kind::Aachen { bicycle_price, .. } => {
            bicycle_price.min(area.bicycle_flat.saturating_sub(book.payments(bicycle)))
        }
    }
}

/// That of the bicycle's old covering area: 0 if unused, and where that area is of kind 8, which has no flat.
fn old_flat(tariff: &Tariff, book: &Book, bicycle: usize) -> Cents {
    let old = book.covering_area(bicycle).map(|old| &tariff.areas[old]);
    old.filter(|old| !old.is_aachen()).map_or(0, |old| old.bicycle_flat)
}
