//! The book: 1,368 little-endian words of 4 bytes.

use super::clock::{LAST_MINUTE, MINUTES_IN_A_DAY};
use super::tariff::MOST_AREAS;
use super::{Cents, Minutes};
use crate::numbers::{number, put};

pub const BOOK_BYTES: usize = 5_472;
const WORDS: usize = 1_368;

/// 0 is the account holder, 1..10 the adults carried, 11..20 the children.
pub const RIDERS: usize = 21;
pub const BICYCLES: usize = 10;
pub const TRIPS_IN_A_WINDOW: u64 = 256;

/// The largest price that a tariff within its ranges can give.
pub const LARGEST_PRICE: Cents = 3_790_000;
/// As many payments as a window may have trips, each of the largest price per trip.
pub const MOST_PAYMENTS: Cents = 15_360_000;

#[derive(Clone, Debug, PartialEq, Eq)]
pub struct Book {
    words: Vec<u64>,
}

/// Charges in second class, for trips whose area is `area` or lies within it.
fn second_class_word(rider: usize, area: usize) -> usize {
    3 + 64 * rider + 2 * area
}

/// The same in all classes.
fn all_classes_word(rider: usize, area: usize) -> usize {
    second_class_word(rider, area) + 1
}

fn bicycle_word(bicycle: usize) -> usize {
    1_347 + bicycle
}

fn payments_word(bicycle: usize) -> usize {
    1_357 + bicycle
}

const EDITION_WORD: usize = 1_367;

impl Book {
    /// A fresh book is all zero.
    pub fn fresh() -> Book {
        Book { words: vec![0; WORDS] }
    }

    /// A book without trips whose window opens at this minute, under the edition of this number.
    pub fn opened_at(minute: Minutes, edition: usize) -> Book {
        let mut book = Book::fresh();
        book.words[1] = minute;
        book.words[EDITION_WORD] = edition as u64;
        book
    }

    /// The words of these bytes, or nothing where the length is wrong.
    pub fn read(bytes: &[u8]) -> Option<Book> {
        (bytes.len() == BOOK_BYTES).then(|| Book { words: bytes.chunks(4).map(number).collect() })
    }

    pub fn bytes(&self) -> Vec<u8> {
        let mut bytes = Vec::with_capacity(BOOK_BYTES);
        for &word in &self.words {
            put(&mut bytes, 4, word);
        }
        bytes
    }

    /// Trips in the window.
    pub fn trips(&self) -> u64 {
        self.words[0]
    }

    /// The window's opening minute.
    pub fn opening(&self) -> Minutes {
        self.words[1]
    }

    pub fn last_check_out(&self) -> Minutes {
        self.words[2]
    }

    pub fn second_class_sum(&self, rider: usize, area: usize) -> Cents {
        self.words[second_class_word(rider, area)]
    }

    pub fn all_classes_sum(&self, rider: usize, area: usize) -> Cents {
        self.words[all_classes_word(rider, area)]
    }

    /// The bicycle's covering area, or nothing if it is unused.
    pub fn covering_area(&self, bicycle: usize) -> Option<usize> {
        match self.words[bicycle_word(bicycle)] {
            0 => None,
            word => Some(word as usize - 1),
        }
    }

    /// What the bicycle paid per trip in the window.
    pub fn payments(&self, bicycle: usize) -> Cents {
        self.words[payments_word(bicycle)]
    }

    /// The number of the window's edition; 0 in a fresh book.
    pub fn edition(&self) -> usize {
        self.words[EDITION_WORD] as usize
    }

    /// Whether the book is sound under a file whose editions have so many areas each.
    pub fn is_sound(&self, areas: &[usize]) -> bool {
        self.words.iter().all(|&word| word == 0)
            || (1..=TRIPS_IN_A_WINDOW).contains(&self.trips())
                && self.times_are_sound()
                && self.sums_are_sound()
                && (1..=areas.len()).contains(&self.edition())
                && self.bicycles_are_sound(areas[self.edition() - 1])
    }

    fn times_are_sound(&self) -> bool {
        self.opening() <= self.last_check_out()
            && self.last_check_out() <= self.opening() + MINUTES_IN_A_DAY
            && self.last_check_out() <= LAST_MINUTE
    }

    /// All riders and all 32 areas, also those that the tariff lacks.
    fn sums_are_sound(&self) -> bool {
        (0..RIDERS).all(|rider| {
            (0..MOST_AREAS).all(|area| {
                self.second_class_sum(rider, area) <= self.all_classes_sum(rider, area)
                    && self.all_classes_sum(rider, area) <= self.trips() * LARGEST_PRICE
            })
        })
    }

    fn bicycles_are_sound(&self, areas: usize) -> bool {
        (0..BICYCLES)
            .all(|bicycle| self.words[bicycle_word(bicycle)] <= areas as u64 && self.payments(bicycle) <= MOST_PAYMENTS)
    }

    /// One more trip, which ended at this minute.
    pub fn count_trip(&mut self, check_out: Minutes) {
        self.words[0] += 1;
        self.words[2] = check_out;
    }

    pub fn add_to_second_class(&mut self, rider: usize, area: usize, charge: Cents) {
        self.words[second_class_word(rider, area)] += charge;
    }

    pub fn add_to_all_classes(&mut self, rider: usize, area: usize, charge: Cents) {
        self.words[all_classes_word(rider, area)] += charge;
    }

    pub fn set_covering_area(&mut self, bicycle: usize, area: usize) {
        self.words[bicycle_word(bicycle)] = 1 + area as u64;
    }

    pub fn add_payment(&mut self, bicycle: usize, charge: Cents) {
        self.words[payments_word(bicycle)] += charge;
    }
}
