//! The kinds of cuts that the run has to meet: which cap is named, and between which it is chosen.

use super::kinds::join;
use crate::model::book::Book;
use crate::model::caps::{caps_in, caps_of, Cap, CapClass, Cut};
use crate::model::charge::{riders_of, Rider};
use crate::model::fare::Ride;
use crate::model::statement::ChargeRecord;
use crate::model::tariff::{Level, Tariff};
use crate::model::trip::Trip;
use crate::model::Cents;

/// This one is enough if it is met at all.
pub const RARE: &str = "cut to 0, and a cap that was passed is not named";

pub const CUTS: [&str; 19] = [
    "cut by a city's second-class cap",
    "cut by a city's all-classes cap",
    "cut by a region's second-class cap",
    "cut by a region's all-classes cap",
    "cut by the state's second-class cap",
    "cut by the state's all-classes cap",
    "cut by a cap of the part's own area",
    "cut by a cap of an area above",
    "cut by an all-classes cap in class 2",
    "a child's price cut",
    "cut to 0, and a narrower area's cap left nothing",
    "cut to more than 0, and a narrower area's cap left as little",
    "cut to 0, and the same area's all-classes cap left nothing",
    "cut to more than 0, and the same area's all-classes cap left as little",
    "cut to 0 by a cap that was passed",
    RARE,
    "nothing taken off, and a cap left exactly the price",
    "nothing taken off, and a cap that the ride has not is full",
    "two persons cut by different caps",
];

/// The book is the one that the part finds.
pub fn kinds_of_cuts(tariff: &Tariff, trip: &Trip, ride: &Ride, book: &Book, record: &ChargeRecord) -> Vec<bool> {
    let (mut of_named, mut of_none) = ([false; 16], [false; 2]);
    for (rider, (&charge, cut)) in riders_of(trip).into_iter().zip(record.charges.iter().zip(&record.cuts)) {
        let caps = caps_of(tariff, ride, book, rider);
        match cut.cap.and_then(|name| caps.iter().find(|cap| (cap.area, cap.class) == name)) {
            Some(named) => join(&mut of_named, &kinds_of_named(ride, rider, &caps, named)),
            None => {
                let all = (0..tariff.areas.len()).flat_map(|area| caps_in(tariff, area, book, rider));
                let others: Vec<Cap> = all.filter(|cap| !caps.contains(cap)).collect();
                join(&mut of_none, &kinds_of_none(charge, &caps, &others));
            }
        }
    }
    [of_named.as_slice(), &of_none, &[have_two_names(&record.cuts)]].concat()
}

/// Those of a person's cut by this cap, one of these.
fn kinds_of_named(ride: &Ride, rider: Rider, caps: &[Cap], named: &Cap) -> [bool; 16] {
    let is = |level: Level, class: CapClass| named.level == level && named.class == class;
    let least = named.left();
    let narrower = caps.iter().any(|cap| cap.left() == least && cap.area != named.area);
    let beside = caps.iter().any(|cap| cap.left() == least && cap.area == named.area && cap.class != named.class);
    [
        is(Level::City, CapClass::SecondClass),
        is(Level::City, CapClass::AllClasses),
        is(Level::Region, CapClass::SecondClass),
        is(Level::Region, CapClass::AllClasses),
        is(Level::State, CapClass::SecondClass),
        is(Level::State, CapClass::AllClasses),
        named.area == ride.area,
        named.area != ride.area,
        ride.class == 2 && named.class == CapClass::AllClasses,
        rider.is_child,
        least == 0 && narrower,
        least != 0 && narrower,
        least == 0 && beside,
        least != 0 && beside,
        named.sum > named.amount,
        named.sum <= named.amount && caps.iter().any(|cap| cap.sum > cap.amount),
    ]
}

/// Those of a person from whose price nothing was taken off by the ride's caps; the others are not the ride's.
fn kinds_of_none(charge: Cents, caps: &[Cap], others: &[Cap]) -> [bool; 2] {
    [
        charge != 0 && caps.iter().any(|cap| cap.left() == charge),
        charge != 0 && others.iter().any(|cap| cap.left() == 0),
    ]
}

fn have_two_names(cuts: &[Cut]) -> bool {
    let mut names = cuts.iter().filter_map(|cut| cut.cap);
    let first = names.next();
    names.any(|name| Some(name) != first)
}
