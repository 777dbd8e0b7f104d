//! The book as it lies in its bytes, when it is sound, and its window. Refusals 4, 10, 22 and 11.

use super::calendar::{LAST_MINUTE, MINUTES_IN_A_DAY};
use super::editions::Editions;
use super::numbers::{four, FOR_X86_64};
use super::tariff::MOST_AREAS;
use super::trip::Trip;
use super::{Cents, Minutes, Refusal};

pub const BOOK: usize = 5_472;
const TRIPS_IN_A_WINDOW: u32 = 256;
/// The largest price that a tariff can give.
const LARGEST_PRICE: Cents = 3_790_000;
/// What a bicycle can have paid per trip in a window.
const MOST_PAYMENTS: Cents = 15_360_000;

/// A pair for each area: the second-class sum and the all-classes sum.
pub type Rider = [Pair; MOST_AREAS];
pub type Pair = [u8; 8];
/// 0 if unused, else 1 + the covering area.
pub type Bicycle = [u8; 4];
/// What a bicycle paid per trip.
pub type Payments = [u8; 4];

/// The bytes of trips, opening minute and last check-out; of the holder, the adults and the children; of the bicycles, and
/// of their payments.
const WINDOW: usize = 12;
const RIDERS: usize = 21 * 256;
const BICYCLES: usize = 10 * 4;
const PAIRS: usize = RIDERS / 8;
/// Where the window's edition stands.
const EDITION: usize = BOOK - 4;
/// The holder and ten adults come first.
const CHILDREN: usize = 11;

/// A sound book.
pub struct Book<'a>(&'a mut [u8; BOOK]);

/// The window that a trip belongs to.
pub struct Window {
    pub opening: Minutes,
    /// Its number, 1 or 2.
    pub edition: u32,
    /// With this one's parts, once they are counted.
    trips: u32,
    /// Whether sums, bicycles and payments go back to none.
    clears: bool,
}

impl Window {
    /// With the trip's parts, so many.
    #[inline(always)]
    pub fn counting(self, parts: usize) -> Result<Window, Refusal> {
        let trips = self.trips + parts as u32;
        if trips > TRIPS_IN_A_WINDOW {
            return Err(Refusal::new(11));
        }
        Ok(Window { trips, ..self })
    }
}

impl<'a> Book<'a> {
    /// The book, refused where it is not sound under editions of so many areas each.
    #[inline(always)]
    pub fn read(bytes: &'a mut [u8], areas: [usize; 2]) -> Result<Book<'a>, Refusal> {
        let bytes: Option<&mut [u8; BOOK]> = bytes.try_into().ok();
        bytes.filter(|bytes| is_sound(bytes, areas)).map(Book).ok_or_else(|| Refusal::new(4))
    }

    /// These bytes become a fresh book.
    pub fn fresh(bytes: &'a mut [u8; BOOK]) -> Book<'a> {
        bytes.fill(0);
        Book(bytes)
    }

    /// The holder and the adults, then the children.
    #[inline(always)]
    pub fn riders(&mut self) -> (&mut [Rider], &mut [Rider]) {
        self.0[WINDOW..][..RIDERS].as_chunks_mut().0.as_chunks_mut().0.split_at_mut(CHILDREN)
    }

    #[inline(always)]
    pub fn bicycles(&mut self) -> (&mut [Bicycle], &mut [Payments]) {
        let (bicycles, payments) = self.0[WINDOW + RIDERS..EDITION].split_at_mut(BICYCLES);
        (bicycles.as_chunks_mut().0, payments.as_chunks_mut().0)
    }

    /// The window that the trip belongs to, its parts not yet counted: the open one, or the next.
    #[inline(always)]
    pub fn window_for(&self, trip: &Trip, editions: &Editions) -> Result<Window, Refusal> {
        let (trips, opening, last) = (four(self.0, 0), four(self.0, 4), four(self.0, 8));
        // A book without trips has 0 for its last check-out.
        if trip.check_in < last {
            return Err(Refusal::new(10));
        }
        if trips == 0 || trip.check_out > opening + MINUTES_IN_A_DAY {
            return match editions.in_force(trip.check_in) {
                0 => Err(Refusal::new(22)),
                edition => Ok(Window { opening: trip.check_in, edition, trips: 0, clears: trips != 0 }),
            };
        }
        Ok(Window { opening, edition: four(self.0, EDITION), trips, clears: false })
    }

    /// Opens the window if it is new, and counts the trip's parts.
    #[inline(always)]
    pub fn enter(&mut self, window: &Window, check_out: Minutes) {
        if window.clears {
            self.0[WINDOW..].fill(0);
        }
        self.0[0..4].copy_from_slice(&window.trips.to_le_bytes());
        self.0[4..8].copy_from_slice(&window.opening.to_le_bytes());
        self.0[8..12].copy_from_slice(&check_out.to_le_bytes());
        self.0[EDITION..].copy_from_slice(&window.edition.to_le_bytes());
    }
}

/// Whether the book is sound under editions of so many areas each, 0 where there is none. Without trips all else is 0 as well.
#[inline(never)]
fn is_sound(bytes: &[u8; BOOK], areas: [usize; 2]) -> bool {
    let (trips, opening, last) = (four(bytes, 0), four(bytes, 4), four(bytes, 8));
    let (edition, (riders, bicycles)) = (four(bytes, EDITION), bytes[WINDOW..EDITION].split_at(RIDERS));
    if trips == 0 {
        return opening | last | edition == 0 && bits_of(bicycles) == 0 && no_sum_is_there(riders.as_chunks().0);
    }
    let areas = match edition {
        1 => areas[0],
        2 => areas[1],
        _ => 0,
    };
    let (bicycles, payments) = bicycles.split_at(BICYCLES);
    trips <= TRIPS_IN_A_WINDOW
        && last <= LAST_MINUTE
        && opening <= last
        && last - opening <= MINUTES_IN_A_DAY
        && areas > 0
        && none_is_above(bicycles, areas as u32)
        && none_is_above(payments, MOST_PAYMENTS)
        && sums_are_sound(riders.as_chunks().0, trips * LARGEST_PRICE)
}

/// A few riders, of which the compiler writes out one row of wide steps.
const RIDERS_AT_ONCE: usize = RIDERS / 7;

#[inline(never)]
fn no_sum_is_there(riders: &[[u8; RIDERS_AT_ONCE]]) -> bool {
    riders.iter().fold(0, |bits, riders| bits | bits_of(riders)) == 0
}

#[inline(always)]
fn bits_of(bytes: &[u8]) -> u64 {
    bytes.as_chunks().0.iter().fold(0, |bits, &word| bits | u64::from_le_bytes(word))
}

#[inline(always)]
fn none_is_above(words: &[u8], most: u32) -> bool {
    !words.as_chunks().0.iter().fold(false, |above, &word| above | (u32::from_le_bytes(word) > most))
}

/// Whether second class ≤ all classes ≤ limit in each pair. The bits of all sums together are seldom above the limit, so
/// that the single ones need not be compared with it. The pairs are looked at in four rows side by side.
#[inline(never)]
fn sums_are_sound(pairs: &[Pair], limit: Cents) -> bool {
    let rows: &[[Pair; PAIRS / 4]] = pairs.as_chunks().0;
    let (mut above, mut bits) = (0, 0);
    for place in 0..PAIRS / 4 {
        for row in &rows[..4] {
            let (second_class, all_classes) = (four(&row[place], 0), four(&row[place], 4));
            above |= bits_if_above(second_class, all_classes);
            bits |= all_classes;
        }
    }
    above & ABOVE == 0 && (bits <= limit || no_sum_is_above(pairs, limit))
}

/// Some of [`ABOVE`] are set where the second number is below the first, and then only; all classes are below 2^31, which
/// is found out as well.
#[inline(always)]
fn bits_if_above(second_class: Cents, all_classes: Cents) -> u32 {
    if FOR_X86_64 {
        all_classes.wrapping_sub(second_class) | second_class
    } else {
        second_class.saturating_sub(all_classes)
    }
}

const ABOVE: u32 = if FOR_X86_64 { 1 << 31 } else { u32::MAX };

#[cold]
#[inline(never)]
fn no_sum_is_above(pairs: &[Pair], limit: Cents) -> bool {
    pairs.iter().all(|pair| four(pair, 4) <= limit)
}
