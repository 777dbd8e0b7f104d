//! A page of accounts: twelve places one after another, each a member's number and that member's book. Two associations share
//! it: each has six of the places and member numbers of its own, and neither's places matter to the other. Members are added with
//! a fresh book, settled and closed.

use super::book::{Book, BOOK_BYTES};
use super::editions::read_file;
use super::{refused, settle, unless, Refusal};
use crate::numbers::{number, put};
use std::ops::Range;

pub const PLACES: usize = 12;
/// The number in a place, which stands before the book.
pub const NUMBER_BYTES: usize = 4;
pub const PLACE_BYTES: usize = NUMBER_BYTES + BOOK_BYTES;
pub const PAGE_BYTES: usize = PLACES * PLACE_BYTES;

/// Association 0 has the first of the places, association 1 the others.
pub const ASSOCIATIONS: usize = 2;
pub const PLACES_OF_EACH: usize = 6;

/// Members have the numbers from 1 to this one.
pub const LARGEST_NUMBER: u64 = 999_999_999;
/// The number of a free place.
pub const FREE: u64 = 0;

/// Adds a member with a fresh book, in the lowest free place of the association. Accepted: the bytes written, a place's.
/// Refused, by 21 and then 18 to 20: the page stays.
pub fn add(page: &mut [u8], association: u32, member: u32) -> Result<usize, Refusal> {
    // 21, 18
    let half = Half::of(page, association, member)?;
    // 19: the member is there already, whether there is room or not
    unless(half.place_of(member).is_none(), 19)?;
    // 20: no place of the association is free
    let place = half.free_place().ok_or(refused(20))?;
    // whatever stood there
    let mut bytes = Vec::new();
    put(&mut bytes, NUMBER_BYTES, member.into());
    bytes.extend(Book::fresh().bytes());
    page[bytes_of(place)].copy_from_slice(&bytes);
    Ok(PLACE_BYTES)
}

/// Closes a member's account: the whole place is cleared. Accepted: the bytes written, a place's. Refused, by 21, 18 or 19: the
/// page stays.
pub fn close(page: &mut [u8], association: u32, member: u32) -> Result<usize, Refusal> {
    // 21, 18
    let half = Half::of(page, association, member)?;
    // 19: the association has no such member
    let place = half.place_of(member).ok_or(refused(19))?;
    page[bytes_of(place)].fill(0);
    Ok(PLACE_BYTES)
}

/// Settles a member's trip on that member's book, and answers as settling does. Refused, by 1 to 3, 21, 18, 19 and then 4 to
/// 12 as settling is: page and statement stay.
pub fn settle_member(
    tariff: &[u8],
    page: &mut [u8],
    association: u32,
    member: u32,
    trip: &[u8],
    statement: &mut [u8],
) -> Result<usize, Refusal> {
    // 1, 2, 3
    read_file(tariff)?;
    // 21, 18
    let half = Half::of(page, association, member)?;
    // 19: the association has no such member
    let place = half.place_of(member).ok_or(refused(19))?;
    // from 4 on
    settle(tariff, &mut page[book_of(place)], trip, statement)
}

/// An association's half of a page.
struct Half {
    first: usize,
    /// Those that stand in its places, in order.
    numbers: Vec<u64>,
}

impl Half {
    /// 21: there is no such association. 18: the page has another length, the number asked for is none of a member, or in this
    /// half one that is stored is none of a member or is stored twice. A free place is only looked at for its number.
    fn of(page: &[u8], association: u32, member: u32) -> Result<Half, Refusal> {
        let association = association as usize;
        unless(association < ASSOCIATIONS, 21)?;
        unless(page.len() == PAGE_BYTES, 18)?;
        unless(is_a_members(member.into()), 18)?;
        let first = PLACES_OF_EACH * association;
        let own = page.chunks(PLACE_BYTES).skip(first).take(PLACES_OF_EACH);
        let numbers: Vec<u64> = own.map(|place| number(&place[..NUMBER_BYTES])).collect();
        let members: Vec<u64> = numbers.iter().copied().filter(|&number| number != FREE).collect();
        unless(members.iter().all(|&member| is_a_members(member)), 18)?;
        let is_stored_once = |member| members.iter().filter(|&&other| other == member).count() == 1;
        unless(members.iter().all(|&member| is_stored_once(member)), 18)?;
        Ok(Half { first, numbers })
    }

    fn place_of(&self, member: u32) -> Option<usize> {
        self.numbers.iter().position(|&number| number == member.into()).map(|place| self.first + place)
    }

    /// The lowest one.
    fn free_place(&self) -> Option<usize> {
        self.numbers.iter().position(|&number| number == FREE).map(|place| self.first + place)
    }
}

fn is_a_members(number: u64) -> bool {
    (1..=LARGEST_NUMBER).contains(&number)
}

/// The bytes of a place.
fn bytes_of(place: usize) -> Range<usize> {
    PLACE_BYTES * place..PLACE_BYTES * (place + 1)
}

/// Those of its book.
fn book_of(place: usize) -> Range<usize> {
    PLACE_BYTES * place + NUMBER_BYTES..PLACE_BYTES * (place + 1)
}
