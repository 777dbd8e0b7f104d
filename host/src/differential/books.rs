//! Books: fresh ones, sound ones at the edges, and unsound ones that miss by one.

use super::random::Random;
use super::trips::{DAY, LAST_MINUTE};
use crate::numbers::number;

pub const BYTES: usize = 5_472;
pub const WORDS: usize = 1_368;
/// The words of the window.
pub const TRIPS: usize = 0;
pub const OPENING: usize = 1;
pub const LAST_CHECK_OUT: usize = 2;
/// The first of the ten words of the bicycles.
pub const BICYCLES: usize = 1_347;
/// The first of the ten words of their payments per trip, none of which is larger than this.
pub const PAYMENTS: usize = 1_357;
pub const MOST_PAYMENTS: u64 = 15_360_000;
/// The word of the window's edition.
pub const EDITION: usize = 1_367;
/// The pairs of sums: 21 riders, 32 areas.
const PAIRS: usize = 672;
/// No sum is larger than this times the trips in the window.
const MOST_A_TRIP: u64 = 3_790_000;

pub fn fresh() -> Vec<u8> {
    vec![0; BYTES]
}

/// A word of the book; 0 where the book is too short for it.
pub fn word(book: &[u8], place: usize) -> u64 {
    book.get(4 * place..4 * place + 4).map_or(0, number)
}

/// Sets a word of the book, unless the book is too short for it.
pub fn set_word(book: &mut [u8], place: usize, value: u64) {
    if let Some(found) = book.get_mut(4 * place..4 * place + 4) {
        found.copy_from_slice(&value.to_le_bytes()[..4]);
    }
}

/// The two words of a pair of sums: second class, all classes.
pub fn pair(pair: usize) -> (usize, usize) {
    (3 + 2 * pair, 4 + 2 * pair)
}

/// A pair that most trips read: of the holder or the first carried, in an area of the tariff.
fn read_pair(random: &mut Random, areas: usize) -> (usize, usize) {
    let rider = random.pick(&[0, 0, 1, 11]);
    pair(32 * rider + random.index(areas))
}

/// The areas of the book's edition, in a file whose editions have so many each; those of the first for a book without edition.
fn areas_for(book: &[u8], areas: &[usize]) -> usize {
    let edition = word(book, EDITION).saturating_sub(1) as usize;
    areas.get(edition).or(areas.first()).copied().unwrap_or(1)
}

/// The edition of a book, which is set to this one where it has none.
pub fn named_edition(book: &mut [u8], edition: usize) -> usize {
    if word(book, EDITION) == 0 {
        set_word(book, EDITION, edition as u64);
    }
    word(book, EDITION) as usize
}

/// A sound book for a file whose editions have so many areas each, with its last check-out at `latest` or shortly before, and
/// its numbers at the ends of their ranges.
pub fn sound_at_the_edges(random: &mut Random, areas: &[usize], latest: u64) -> Vec<u8> {
    let mut book = fresh();
    set_word(&mut book, EDITION, random.within(1, areas.len() as u64));
    let areas = areas_for(&book, areas);
    let trips = random.pick(&[1, 1, 2, 3, 10, 100, 254, 255, 256]);
    let last = latest.min(LAST_MINUTE).saturating_sub(random.pick(&[0, 0, 1, 60, 1_439, 1_440, 1_441]));
    let opening = last.saturating_sub(random.pick(&[0, 1, 60, 200, 1_000, 1_439, 1_440]));
    set_word(&mut book, TRIPS, trips);
    set_word(&mut book, OPENING, opening);
    set_word(&mut book, LAST_CHECK_OUT, last);
    let limit = trips * MOST_A_TRIP;
    let filled = random.pick(&[0, 1, 5, 30, 300]);
    for _ in 0..filled {
        let (second, all) = if random.chance(50) { pair(random.index(PAIRS)) } else { read_pair(random, areas) };
        let sum = random.pick(&[1, 100, 200, 400, 800, 1_500, 2_500, 60_000, limit - 1, limit, limit]);
        set_word(&mut book, second, random.pick(&[0, 1, sum / 2, sum - 1, sum, sum]));
        set_word(&mut book, all, sum);
    }
    for bicycle in 0..10 {
        let any = random.within(0, areas as u64);
        set_word(&mut book, BICYCLES + bicycle, random.pick(&[0, 0, 0, 1, areas as u64, any]));
        let paid = random.within(100, 600);
        set_word(&mut book, PAYMENTS + bicycle, random.pick(&[0, paid, paid, paid, 60_000, MOST_PAYMENTS]));
    }
    book
}

/// Makes the book unsound in one way, mostly by the least that is enough.
pub fn spoil(random: &mut Random, book: &mut Vec<u8>, editions: &[usize]) {
    if word(book, TRIPS) == 0 && random.chance(30) {
        let place = if random.chance(30) { EDITION } else { random.index(WORDS - 1) + 1 };
        set_word(book, place, random.pick(&[1, 2, 1 << 8, 1 << 31]));
        return;
    }
    if word(book, TRIPS) == 0 {
        set_word(book, TRIPS, 1);
    }
    named_edition(book, 1);
    let areas = areas_for(book, editions);
    let trips = word(book, TRIPS);
    let opening = word(book, OPENING);
    let (second, all) = pair(random.index(PAIRS));
    let limit = trips * MOST_A_TRIP;
    match random.below(14) {
        0 => set_word(book, TRIPS, random.pick(&[257, 258, 512, 1_134, 65_536, 1 << 31, u64::from(u32::MAX)])),
        1 => {
            set_word(book, TRIPS, 0);
            set_word(book, LAST_CHECK_OUT, opening.max(1));
        }
        2 => {
            set_word(book, OPENING, opening + 1);
            set_word(book, LAST_CHECK_OUT, opening);
        }
        3 => set_word(book, LAST_CHECK_OUT, opening + DAY + random.pick(&[1, 1, 2, 1_000])),
        4 => {
            set_word(book, OPENING, LAST_MINUTE - random.pick(&[0, 1, DAY - 1]));
            set_word(book, LAST_CHECK_OUT, LAST_MINUTE + 1);
        }
        5 => {
            let late = u64::from(u32::MAX) - random.below(2 * DAY);
            set_word(book, OPENING, late);
            set_word(book, LAST_CHECK_OUT, random.pick(&[late, (late + DAY) % (1 << 32), 0]));
        }
        6 => {
            let sum = random.pick(&[word(book, all), 0, 7, limit]);
            set_word(book, all, sum);
            set_word(book, second, sum + random.pick(&[1, 1, 1_000]));
        }
        7 => set_word(book, all, random.pick(&[limit + 1, limit + 1, u64::from(u32::MAX)])),
        8 => {
            let covering = random.pick(&[areas as u64 + 1, areas as u64 + 1, 33, 256, u64::from(u32::MAX)]);
            set_word(book, BICYCLES + random.index(10), covering.max(areas as u64 + 1));
        }
        9 => {
            let paid = random.pick(&[MOST_PAYMENTS + 1, MOST_PAYMENTS + 1, u64::from(u32::MAX)]);
            set_word(book, PAYMENTS + random.index(10), paid);
        }
        10 => set_word(book, EDITION, 0),
        11 => {
            let more = editions.len() as u64 + 1;
            set_word(book, EDITION, random.pick(&[more, more, 3, 256, 257, u64::from(u32::MAX)]));
        }
        12 => {
            // The edition of the fewest areas, and a covering area that it lacks.
            let fewest = (0..editions.len()).min_by_key(|&edition| editions[edition]).unwrap_or(0);
            set_word(book, EDITION, 1 + fewest as u64);
            let more = editions.get(fewest).map_or(32, |&areas| areas as u64) + 1;
            set_word(book, BICYCLES + random.index(10), more);
        }
        // 5,428 bytes had a book before it had payments, 5,468 before it had an edition.
        _ => book.resize(random.pick(&[0, 1, 4, 5_428, 5_428, 5_468, 5_468, 5_471, 5_473, 5_476, 10_944]), 0),
    }
}

#[cfg(test)]
mod tests {
    use super::*;
    use crate::model::book::Book;

    fn is_sound(book: &[u8], areas: &[usize]) -> bool {
        Book::read(book).is_some_and(|book| book.is_sound(areas))
    }

    #[test]
    fn sound_and_unsound() {
        let mut random = Random::of(1, 0);
        for _ in 0..3_000 {
            let many = random.pick(&[1, 2, 2]);
            let areas: Vec<usize> = (0..many).map(|_| random.within(1, 32) as usize).collect();
            let mut book = if random.chance(20) {
                fresh()
            } else {
                let latest = random.pick(&[0, 1, 5_000_000, LAST_MINUTE]);
                sound_at_the_edges(&mut random, &areas, latest)
            };
            assert!(is_sound(&book, &areas));
            spoil(&mut random, &mut book, &areas);
            assert!(!is_sound(&book, &areas));
        }
    }
}
