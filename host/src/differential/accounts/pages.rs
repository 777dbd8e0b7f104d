//! Pages: their places, and what may stand in them.

use crate::differential::books::{self, fresh, sound_at_the_edges, spoil};
use crate::differential::random::Random;
use crate::differential::report::book_in_words;
use crate::model::book::Book;
use crate::model::page::{FREE, NUMBER_BYTES, PAGE_BYTES, PLACES_OF_EACH, PLACE_BYTES};
use crate::numbers::number;
use std::ops::Range;

/// Numbers that no member has; 0 marks a free place.
pub const OUTSIDE: [u32; 5] = [1_000_000_000, 1_000_000_001, 0x4000_0000, 1 << 31, u32::MAX];

/// Numbers at the ends of the range, and with bytes that are 0.
const EDGES: [u32; 8] = [1, 2, 255, 256, 65_536, 16_777_216, 999_999_998, 999_999_999];

/// Sixteen numbers of members, in any order.
pub fn pool(random: &mut Random) -> Vec<u32> {
    let mut all = EDGES.to_vec();
    while all.len() < 16 {
        let member = random.within(1, 999_999_999) as u32;
        if !all.contains(&member) {
            all.push(member);
        }
    }
    for place in (1..all.len()).rev() {
        all.swap(place, random.index(place + 1));
    }
    all
}

/// The places of an association.
pub fn places_of(association: u32) -> Range<usize> {
    let first = PLACES_OF_EACH * (association as usize % 2);
    first..first + PLACES_OF_EACH
}

/// The bytes of these places.
pub fn half_of(association: u32) -> Range<usize> {
    let Range { start, end } = places_of(association);
    PLACE_BYTES * start..PLACE_BYTES * end
}

/// A page with so many members of each association, in any of its places and the same ones of the pool as far as they go, each
/// with some book. In the free places stands nothing, or anything.
pub fn page_with(random: &mut Random, many: [usize; 2], pool: &[u32], areas: &[usize], now: u64) -> Vec<u8> {
    let mut page = vec![0; PAGE_BYTES];
    for (association, many) in (0..).zip(many) {
        let mut places: Vec<usize> = places_of(association).collect();
        for &member in &pool[..many] {
            let place = places.swap_remove(random.index(places.len()));
            put_number(&mut page, place, member);
            super::put_some_book(random, &mut page, place, areas, now);
        }
        for place in places {
            if random.chance(50) {
                fill_behind_the_number(random, &mut page, place);
            }
        }
    }
    page
}

/// Another half for the other association: one that would be refused, or anything.
pub fn other_half(random: &mut Random, page: &[u8], association: u32) -> Vec<u8> {
    let mut page = page.to_vec();
    for place in places_of(association ^ 1) {
        let stored = random.pick(&[0, 1, 7, 7, 7, 999_999_999, 1_000_000_000, u32::MAX]);
        put_number(&mut page, place, stored);
        if random.chance(30) {
            fill_behind_the_number(random, &mut page, place);
        }
    }
    page
}

/// Fresh, sound at the edges, or unsound, and always of a book's length.
pub fn some_book(random: &mut Random, areas: &[usize], now: u64) -> Vec<u8> {
    let mut book = if random.chance(50) { fresh() } else { sound_at_the_edges(random, areas, now) };
    if random.chance(12) {
        spoil(random, &mut book, areas);
        book.resize(books::BYTES, 1);
    }
    book
}

/// Any bytes in the place of a book.
pub fn fill_behind_the_number(random: &mut Random, page: &mut [u8], place: usize) {
    for byte in page.get_mut(book_of(place)).into_iter().flatten() {
        *byte = random.next() as u8;
    }
}

pub fn book_of(place: usize) -> Range<usize> {
    PLACE_BYTES * place + NUMBER_BYTES..PLACE_BYTES * (place + 1)
}

fn number_of(place: usize) -> Range<usize> {
    PLACE_BYTES * place..PLACE_BYTES * place + NUMBER_BYTES
}

/// The number in a place; 0 where the page is too short for it.
pub fn member_in(page: &[u8], place: usize) -> u32 {
    page.get(number_of(place)).map_or(0, |bytes| number(bytes) as u32)
}

/// Puts a number into a place, unless the page is too short for it.
pub fn put_number(page: &mut [u8], place: usize, member: u32) {
    if let Some(bytes) = page.get_mut(number_of(place)) {
        bytes.copy_from_slice(&member.to_le_bytes());
    }
}

/// The numbers of the association's places that are not free, in order.
pub fn members_in(page: &[u8], association: u32) -> Vec<u32> {
    let all = places_of(association).map(|place| member_in(page, place));
    all.filter(|&member| u64::from(member) != FREE).collect()
}

/// The association's first place with this number.
pub fn place_of(page: &[u8], association: u32, member: u32) -> Option<usize> {
    places_of(association).find(|&place| member_in(page, place) == member)
}

pub fn is_taken(page: &[u8], association: u32, member: u32) -> bool {
    place_of(page, association, member).is_some()
}

/// The member's book, where it is sound; else a fresh one.
pub fn book_to_plan_on(page: &[u8], association: u32, member: u32, areas: &[usize]) -> Vec<u8> {
    let book = place_of(page, association, member).and_then(|place| page.get(book_of(place)));
    book.filter(|book| is_sound(book, areas)).map_or_else(fresh, <[u8]>::to_vec)
}

pub fn is_sound(book: &[u8], areas: &[usize]) -> bool {
    Book::read(book).is_some_and(|book| book.is_sound(areas))
}

/// A place's number and book.
pub fn place_in_words(member: u32, place: &[u8]) -> String {
    let book = &place[NUMBER_BYTES..];
    if u64::from(member) != FREE {
        return format!("member {member}, book:{}", book_in_words(book));
    }
    format!("free, with {} bytes that are not 0", book.iter().filter(|&&byte| byte != 0).count())
}
