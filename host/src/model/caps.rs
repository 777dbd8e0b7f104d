//! The caps that a ride has, what each has left, and which one is named where something was taken off the price.

use super::book::Book;
use super::charge::Rider;
use super::fare::{raised_for_first_class, reduced_for_children, Ride};
use super::tariff::{Area, Level, Tariff};
use super::Cents;

/// What a cap counts.
#[derive(Clone, Copy, Debug, PartialEq, Eq)]
pub enum CapClass {
    SecondClass,
    AllClasses,
}

/// A cap of an area, for one rider.
#[derive(Clone, Copy, Debug, PartialEq, Eq)]
pub struct Cap {
    pub area: usize,
    pub level: Level,
    pub class: CapClass,
    pub amount: Cents,
    /// What the rider was charged of what it counts.
    pub sum: Cents,
}

impl Cap {
    /// What it has left: 0 if passed already.
    pub fn left(&self) -> Cents {
        self.amount.saturating_sub(self.sum)
    }
}

/// The caps of the ride's area and of every area above: in class 2 both, in class 1 those of all classes.
pub fn caps_of(tariff: &Tariff, ride: &Ride, book: &Book, rider: Rider) -> Vec<Cap> {
    let areas = tariff.area_and_those_above(ride.area).into_iter();
    let caps = areas.flat_map(|area| caps_in(tariff, area, book, rider));
    caps.filter(|cap| ride.class == 2 || cap.class == CapClass::AllClasses).collect()
}

/// The two caps of an area; none without a day cap.
pub fn caps_in(tariff: &Tariff, number: usize, book: &Book, rider: Rider) -> Vec<Cap> {
    let area = &tariff.areas[number];
    let Some(day_cap) = area.day_cap else { return Vec::new() };
    let second = second_class_cap(area, rider, day_cap);
    let all = all_classes_cap(area, rider, day_cap);
    let cap = |class, amount, sum| Cap { area: number, level: area.level, class, amount, sum };
    vec![
        cap(CapClass::SecondClass, second, book.second_class_sum(rider.number, number)),
        cap(CapClass::AllClasses, all, book.all_classes_sum(rider.number, number)),
    ]
}

/// The day cap; for children reduced and rounded up.
fn second_class_cap(area: &Area, rider: Rider, day_cap: Cents) -> Cents {
    cap_for(area, rider, day_cap)
}

/// The day cap with the surcharge, rounded up; for children then reduced and rounded up.
fn all_classes_cap(area: &Area, rider: Rider, day_cap: Cents) -> Cents {
    cap_for(area, rider, raised_for_first_class(area, day_cap))
}

fn cap_for(area: &Area, rider: Rider, cap: Cents) -> Cents {
    if rider.is_child {
        reduced_for_children(area, cap)
    } else {
        cap
    }
}

/// What was taken off a rider's price, and the cap that is named for it: its area and what it counts.
#[derive(Clone, Copy, Debug, PartialEq, Eq)]
pub struct Cut {
    pub reduction: Cents,
    pub cap: Option<(usize, CapClass)>,
}

impl Cut {
    /// Where nothing was taken off, no cap is named. Else it is, of these caps, one that left the least; of several the
    /// one of the widest area, and in one area that of second class.
    pub fn of(price: Cents, charge: Cents, caps: &[Cap]) -> Cut {
        let reduction = price - charge;
        let named =
            caps.iter().min_by_key(|cap| (cap.left(), narrowness(cap.level), cap.class != CapClass::SecondClass));
        Cut { reduction, cap: named.filter(|_| reduction != 0).map(|cap| (cap.area, cap.class)) }
    }
}

/// From the widest area to the narrowest.
fn narrowness(level: Level) -> u64 {
    match level {
        Level::State => 0,
        Level::Region => 1,
        Level::City => 2,
    }
}
