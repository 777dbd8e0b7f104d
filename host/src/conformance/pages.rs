//! Calls on pages of accounts: small pages, so that a case can be read, and what was settled on a book settled for a member.

use super::recorder::{settled, told_from, RECORDED};
use crate::model::book::BOOK_BYTES;
use crate::model::page::{LARGEST_NUMBER, NUMBER_BYTES, PAGE_BYTES, PLACES_OF_EACH, PLACE_BYTES};

const ABOVE: u32 = LARGEST_NUMBER as u32 + 1;

pub fn keep() {
    told_from("a page of accounts");
    for association in 0..2 {
        members_come_and_go(association);
        for page in some_pages(association as usize) {
            each_call(&page, association, 4711);
            each_call(&page, association, 9);
        }
        for member in [0, 1, ABOVE - 1, ABOVE, u32::MAX] {
            each_call(&page_of(association as usize, &[7, 8]), association, member);
        }
    }
    for association in [2, 3, 255, 256, u32::MAX] {
        each_call(&page_of(0, &[4711]), association, 4711);
        each_call(&[], association, 0);
    }
    settled().into_iter().enumerate().for_each(|(place, given)| settle_on_a_page(place, given));
}

/// A page with these members in the association's places, in order, each with a fresh book.
fn page_of(association: usize, members: &[u32]) -> Vec<u8> {
    let mut page = vec![0; PAGE_BYTES];
    for (place, member) in members.iter().enumerate() {
        put(&mut page, association * PLACES_OF_EACH + place, *member);
    }
    page
}

fn put(page: &mut [u8], place: usize, member: u32) {
    page[place * PLACE_BYTES..][..NUMBER_BYTES].copy_from_slice(&member.to_le_bytes());
}

/// Eight are added where six have room, one of them twice; some are closed, and others added in their places.
fn members_come_and_go(association: u32) {
    let mut page = vec![0; PAGE_BYTES];
    for member in [815, 4711, 815, 1, 999_999_999, 256, 65_536, 16_777_216, 4711] {
        (RECORDED.add)(&mut page, association, member);
    }
    for member in [4711, 4711, 999_999_999, 3] {
        (RECORDED.close)(&mut page, association, member);
        (RECORDED.add)(&mut page, association ^ 1, member);
    }
    for member in [3, 4711, 12] {
        (RECORDED.add)(&mut page, association, member);
    }
}

/// Bytes in every book and behind every free place, so that one that is left or written is seen.
fn littered(mut page: Vec<u8>) -> Vec<u8> {
    for place in page.chunks_mut(PLACE_BYTES).filter(|place| place.len() == PLACE_BYTES) {
        (place[NUMBER_BYTES], place[PLACE_BYTES - 1]) = (0xee, 0xee);
    }
    page
}

/// Of another length; with one member and with the same one in the same place of the other half; full; with a number that is too
/// large, and with one that is stored twice, at the start and at the end of this half and of the other.
fn some_pages(own: usize) -> Vec<Vec<u8>> {
    let good = page_of(own, &[4711, 815]);
    let mut all = vec![vec![], good[..PAGE_BYTES - 1].to_vec(), [good.clone(), vec![0]].concat()];
    all.extend([littered(good), page_of(own, &[1, 2, 3, 4, 5, 6]), page_of(own, &[1, 2, 3, 4, 5, 4711])]);
    let mut mirrored = littered(page_of(own, &[1, 4711]));
    put(&mut mirrored, (own ^ 1) * PLACES_OF_EACH + 1, 4711);
    all.push(mirrored);
    for half in [own, own ^ 1] {
        for members in [
            [1, 2, 3, 4, 4711, ABOVE],
            [u32::MAX, 0, 0, 0, 0, 4711],
            [815, 815, 0, 0, 0, 0],
            [1, 2, 3, 4, 5, 5],
            [4711, 4711, 0, 0, 0, 0],
        ] {
            let mut page = page_of(half, &members);
            if half != own {
                put(&mut page, own * PLACES_OF_EACH + 3, 4711);
            }
            all.push(page);
        }
    }
    all
}

/// Added and closed, each on a copy of the page.
fn each_call(page: &[u8], association: u32, member: u32) {
    (RECORDED.add)(&mut page.to_vec(), association, member);
    (RECORDED.close)(&mut page.to_vec(), association, member);
    (RECORDED.settle_member)(&[], &mut page.to_vec(), association, member, &[], &mut []);
}

/// A case that was settled on a book, for a member with this book; at times another member's book is none, the member is asked for
/// by another number, the association is none, or the page is a byte too short.
fn settle_on_a_page(place: usize, [tariff, book, trip, mut statement]: [Vec<u8>; 4]) {
    if book.len() != BOOK_BYTES {
        return;
    }
    let (association, own) = (place % 2, place % PLACES_OF_EACH);
    let mut page = page_of(association ^ 1, &[4711, 815]);
    if place % 3 == 0 {
        put(&mut page, association * PLACES_OF_EACH + (own + 1) % PLACES_OF_EACH, 9);
        page = littered(page);
    }
    let at = association * PLACES_OF_EACH + own;
    put(&mut page, at, 4711);
    page[at * PLACE_BYTES + NUMBER_BYTES..][..BOOK_BYTES].copy_from_slice(&book);
    let member = if place % 29 == 0 { 815 } else { 4711 };
    let association = if place % 31 == 0 { 2 } else { association as u32 };
    page.truncate(if place % 37 == 0 { PAGE_BYTES - 1 } else { PAGE_BYTES });
    (RECORDED.settle_member)(&tariff, &mut page, association, member, &trip, &mut statement);
}
