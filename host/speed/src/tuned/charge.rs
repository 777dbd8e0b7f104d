//! Caps, charges and bicycles.

use super::book::{Book, Rider};
use super::fare::{raised_for_first_class, reduced_for_children, Ride};
use super::numbers::two;
use super::record::{BICYCLE, PERSON};
use super::tariff::{bicycle_flat, is_aachen, Area, Tariff, MOST_AREAS, NO_DAY_CAP};
use super::trip::Trip;
use super::Cents;

/// Charges everyone and everything on the trip for a part of it, and posts the charges. The slots take them as the record has
/// them: account holder, adults, children, bicycles. The answer is their total.
#[inline(always)]
pub fn charge_party(tariff: &Tariff, trip: &Trip, ride: &Ride, book: &mut Book, slots: &mut [u8]) -> Cents {
    let state = (0, tariff.area(0));
    match ride.record[4] {
        0 => charge_along([state], tariff, trip, ride, book, slots),
        1 => charge_along([state, (ride.area, ride.record)], tariff, trip, ride, book, slots),
        _ => {
            let region = usize::from(ride.record[5]);
            let chain = [state, (region, tariff.area(region)), (ride.area, ride.record)];
            charge_along(chain, tariff, trip, ride, book, slots)
        }
    }
}

/// Most account holders travel alone.
#[inline(always)]
fn charge_along<const N: usize>(
    chain: [(usize, &Area); N],
    tariff: &Tariff,
    trip: &Trip,
    ride: &Ride,
    book: &mut Book,
    slots: &mut [u8],
) -> Cents {
    let fare = Fare { chain, price: ride.price, class: trip.class, child: false };
    let (holder, slots) = slots.split_first_chunk_mut().expect("the account holder's slot");
    let total = fare.charge_one(&mut book.riders().0[0], holder);
    if trip.party == 0 {
        return total;
    }
    let (persons, bicycles) = slots.split_at_mut(PERSON * (trip.adults() + trip.children()));
    total
        + charge_carried(&fare, tariff, trip, ride, book, persons.as_chunks_mut().0)
        + charge_bicycles(tariff, trip, ride, book, bicycles.as_chunks_mut().0)
}

/// Charges the adults and children carried.
#[inline(never)]
fn charge_carried<const N: usize>(
    fare: &Fare<N>,
    tariff: &Tariff,
    trip: &Trip,
    ride: &Ride,
    book: &mut Book,
    slots: &mut [[u8; PERSON]],
) -> Cents {
    let (adults, children) = book.riders();
    let (adult_slots, child_slots) = slots.split_at_mut(trip.adults());
    let total = fare.charge_all(&mut adults[1..1 + trip.adults()], adult_slots);
    if trip.children() == 0 {
        return total;
    }
    let fare = Fare { price: ride.child_price(tariff, trip), child: true, ..*fare };
    total + fare.charge_all(&mut children[..trip.children()], child_slots)
}

/// What riders of one sort, adults or children, are charged by.
struct Fare<'a, const N: usize> {
    /// The trip's area and every area above it, each with its number; the widest first.
    chain: [(usize, &'a Area); N],
    price: Cents,
    /// 1 or 2.
    class: u64,
    child: bool,
}

/// A charge, and what the record says of it: charge and reduction, and the cap that is named, its area and class.
#[derive(Clone, Copy)]
struct Charge {
    cents: Cents,
    amounts: u64,
    cap: u16,
}

/// No area, no class.
const NO_CAP: u16 = 255;

const SECOND_CLASS: u16 = 2 << 8;
const ALL_CLASSES: u16 = 1 << 8;

impl Charge {
    #[inline(always)]
    fn write(&self, slot: &mut [u8; PERSON]) {
        slot[..8].copy_from_slice(&self.amounts.to_le_bytes());
        slot[8..].copy_from_slice(&self.cap.to_le_bytes());
    }
}

impl<const N: usize> Fare<'_, N> {
    #[inline(always)]
    fn charge_one(&self, rider: &mut Rider, slot: &mut [u8; PERSON]) -> Cents {
        let sums = self.sums_of(rider);
        let charge = self.charge_on(&sums);
        self.set_sums(rider, &self.with(charge, &sums));
        charge.write(slot);
        charge.cents
    }

    /// Those who have travelled together have the same sums: a charge is worked out only where they differ from those
    /// of the rider before.
    #[inline(always)]
    fn charge_all(&self, riders: &mut [Rider], slots: &mut [[u8; PERSON]]) -> Cents {
        let (mut before, mut after, mut total) = ([u64::MAX; N], [0; N], 0);
        let mut charge = Charge { cents: 0, amounts: 0, cap: 0 };
        for (rider, slot) in riders.iter_mut().zip(slots) {
            let sums = self.sums_of(rider);
            if sums.iter().zip(&before).fold(0, |bits, (sums, before)| bits | (sums ^ before)) != 0 {
                before = sums;
                charge = self.charge_on(&sums);
                after = self.with(charge, &sums);
            }
            self.set_sums(rider, &after);
            charge.write(slot);
            total += charge.cents;
        }
        total
    }

    /// The rider's sums along the chain. A pair is one number, with the sum of all classes in its upper half.
    #[inline(always)]
    fn sums_of(&self, rider: &Rider) -> [u64; N] {
        self.chain.map(|(area, _)| u64::from_le_bytes(rider[area % MOST_AREAS]))
    }

    #[inline(always)]
    fn set_sums(&self, rider: &mut Rider, sums: &[u64; N]) {
        for (sums, &(area, _)) in sums.iter().zip(&self.chain) {
            rider[area % MOST_AREAS] = sums.to_le_bytes();
        }
    }

    /// The sums with the charge: in class 2 it is added to both of a pair, in class 1 to the upper.
    #[inline(always)]
    fn with(&self, charge: Charge, sums: &[u64; N]) -> [u64; N] {
        sums.map(|sums| sums + u64::from(charge.cents) * (1 << 32 | (self.class - 1)))
    }

    /// The smallest of the price and what each cap has left, and 0 at least; named is the first cap that has the least left,
    /// where that is below the price. An area's all-classes cap is not below its second-class cap, nor its all-classes sum
    /// below its second-class sum: where the lower cap has enough left above the larger sum, neither cap is short.
    #[inline(always)]
    fn charge_on(&self, sums: &[u64; N]) -> Charge {
        let (mut cents, mut cap) = (self.price as i32, NO_CAP);
        for (&(number, area), &sums) in self.chain.iter().zip(sums) {
            let (second_class, all_classes) = (sums as i32, (sums >> 32) as i32);
            let day_cap = two(area, 25);
            let second_class_cap = self.reduced(area, day_cap);
            if cents > second_class_cap - all_classes && day_cap != NO_DAY_CAP {
                let left = (second_class_cap - second_class).max(0);
                if self.class == 2 && left < cents {
                    (cents, cap) = (left, number as u16 | SECOND_CLASS);
                }
                let left = (self.reduced(area, raised_for_first_class(area, day_cap)) - all_classes).max(0);
                if left < cents {
                    (cents, cap) = (left, number as u16 | ALL_CLASSES);
                }
            }
        }
        let cents = cents as Cents;
        Charge { cents, amounts: u64::from(cents) | u64::from(self.price - cents) << 32, cap }
    }

    #[inline(always)]
    fn reduced(&self, area: &Area, cap: Cents) -> i32 {
        let cap = if self.child { reduced_for_children(area, cap) } else { cap };
        cap as i32
    }
}

/// A bicycle's new covering area is the smallest containing the trip's and its old one. Where that is of kind 1, it is charged
/// the difference of their flats; where it is of kind 8, a price per trip up to a cap. Bicycles of which the book says the
/// same are charged alike.
#[inline(never)]
fn charge_bicycles(tariff: &Tariff, trip: &Trip, ride: &Ride, book: &mut Book, slots: &mut [[u8; BICYCLE]]) -> Cents {
    let (bicycles, payments) = book.bicycles();
    let (mut before, mut after, mut total) = ((u32::MAX, 0), (0, 0, 0), 0);
    for ((bicycle, payments), slot) in bicycles[..trip.bicycles()].iter_mut().zip(payments).zip(slots) {
        let found = (u32::from_le_bytes(*bicycle), u32::from_le_bytes(*payments));
        if found != before {
            before = found;
            after = charge_bicycle(tariff, ride, found);
        }
        *bicycle = after.0.to_le_bytes();
        *payments = after.1.to_le_bytes();
        *slot = after.2.to_le_bytes();
        total += after.2;
    }
    total
}

/// The bicycle's new word, its new payments and its charge.
#[inline(always)]
fn charge_bicycle(tariff: &Tariff, ride: &Ride, (word, payments): (u32, Cents)) -> (u32, Cents, Cents) {
    let old = word.checked_sub(1).map(|old| old as usize);
    let covering = match old {
        Some(old) if old != ride.area => tariff.smallest_containing(1 << (ride.area % 32) | 1 << (old % 32)),
        _ => ride.area,
    };
    let area = tariff.area(covering);
    if is_aachen(area) {
        let left = bicycle_flat(area).saturating_sub(payments);
        let charge = two(tariff.aachen_area(covering), 39).min(left);
        return (1 + covering as u32, payments + charge, charge);
    }
    let old_flat = old.map(|old| tariff.area(old)).filter(|old| !is_aachen(old)).map_or(0, bicycle_flat);
    (1 + covering as u32, payments, bicycle_flat(area) - old_flat)
}
