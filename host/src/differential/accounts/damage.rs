//! Pages and calls that may be refused, each just outside what is allowed, and pages with something in them that does not
//! matter: other members' broken books, and anything in free places.

use super::calls::Call;
use super::pages::{
    book_of, fill_behind_the_number, is_taken, member_in, other_half, place_of, places_of, put_number, OUTSIDE,
};
use super::{put_some_book, PageDraft};
use crate::differential::books::{spoil, BYTES};
use crate::differential::damage;
use crate::differential::random::Random;
use crate::model::page::{FREE, NUMBER_BYTES, PAGE_BYTES, PLACES, PLACES_OF_EACH, PLACE_BYTES};

/// A way to damage a call, and what to call it.
type Damage = (&'static str, fn(&mut Random, &mut PageDraft));

/// In the order of the refusals that they aim at; the last three may end in any. What stands in the other association's half does
/// not matter.
const DAMAGES: [Damage; 16] = [
    ("the association", association),
    ("the other association's half", the_other_half),
    ("the other association's half", the_other_half),
    ("the page's length", length),
    ("the number asked for", asked_number),
    ("a number that is stored", stored_number),
    ("a number that is stored twice", stored_twice),
    ("a number that is stored twice", stored_twice),
    ("another member", another_member),
    ("a full page", full_page),
    ("another member's book", others_book),
    ("the member's own book", own_book),
    ("what stands in free places", free_places),
    ("what settling is given", given_to_settling),
    ("what settling is given", given_to_settling),
    ("flipped bits", flipped_bits),
];

/// One damage, and at times another one, so that the order of the refusals is seen.
pub fn damage(random: &mut Random, draft: &mut PageDraft) {
    loop {
        let (name, make) = random.pick(&DAMAGES);
        make(random, draft);
        draft.story.push(name);
        if !random.chance(40) {
            break;
        }
    }
}

fn association(random: &mut Random, draft: &mut PageDraft) {
    draft.association = random.pick(&[2, 2, 3, 256, 257, 1 << 16, 1 << 31, u32::MAX]);
}

fn the_other_half(random: &mut Random, draft: &mut PageDraft) {
    draft.page = other_half(random, &draft.page, draft.association);
}

/// One of the association's own.
fn own_place(random: &mut Random, draft: &PageDraft) -> usize {
    places_of(draft.association).start + random.index(PLACES_OF_EACH)
}

fn length(random: &mut Random, draft: &mut PageDraft) {
    let few = [0, 1, 4, BYTES, PLACE_BYTES, PAGE_BYTES - PLACE_BYTES, PAGE_BYTES + PLACE_BYTES];
    let length = if random.chance(60) { random.pick(&[PAGE_BYTES - 1, PAGE_BYTES + 1]) } else { random.pick(&few) };
    draft.page.resize(length, random.pick(&[0, 1]));
}

fn asked_number(random: &mut Random, draft: &mut PageDraft) {
    draft.member = if random.chance(40) { FREE as u32 } else { random.pick(&OUTSIDE) };
}

/// In a place that is free or taken; at times it is one that may stand there.
fn stored_number(random: &mut Random, draft: &mut PageDraft) {
    let place = own_place(random, draft);
    let number = if random.chance(25) { random.pick(&[1, 999_999_999]) } else { random.pick(&OUTSIDE) };
    put_number(&mut draft.page, place, number);
}

/// The number of the member that is asked for, or another's, once more; at times in neighbouring places.
fn stored_twice(random: &mut Random, draft: &mut PageDraft) {
    let first = random.index(PLACES_OF_EACH);
    let own = places_of(draft.association).start;
    let number = match (member_in(&draft.page, own + first), random.chance(30)) {
        (0, _) | (_, true) => draft.member,
        (number, false) => number,
    };
    put_number(&mut draft.page, own + first, number);
    let other = if random.chance(50) { first + 1 } else { first + 1 + random.index(PLACES_OF_EACH - 1) };
    put_number(&mut draft.page, own + other % PLACES_OF_EACH, number);
}

/// Who is there is added, and who is not is closed or settled.
fn another_member(random: &mut Random, draft: &mut PageDraft) {
    let member = member_in(&draft.page, own_place(random, draft));
    draft.member = match (draft.call, u64::from(member) != FREE) {
        (Call::Add, true) => member,
        _ => random.within(1, 999_999_999) as u32,
    };
}

/// Every free place of the association is taken, by the one who is asked for, too, or not.
fn full_page(random: &mut Random, draft: &mut PageDraft) {
    for place in places_of(draft.association) {
        if u64::from(member_in(&draft.page, place)) == FREE {
            let is_asked = random.chance(10) && !is_taken(&draft.page, draft.association, draft.member);
            let other = 500_000_000 + place as u32;
            put_number(&mut draft.page, place, if is_asked { draft.member } else { other });
        }
    }
    draft.call = random.pick(&[Call::Add, Call::Add, draft.call]);
}

fn others_book(random: &mut Random, draft: &mut PageDraft) {
    let place = own_place(random, draft);
    if member_in(&draft.page, place) != draft.member {
        fill_behind_the_number(random, &mut draft.page, place);
    }
}

fn own_book(random: &mut Random, draft: &mut PageDraft) {
    let Some(place) = place_of(&draft.page, draft.association, draft.member) else { return };
    let areas = draft.draft.areas();
    if random.chance(30) {
        return put_some_book(random, &mut draft.page, place, &areas, draft.draft.plan.check_in);
    }
    let mut book = draft.draft.case.book.clone();
    spoil(random, &mut book, &areas);
    put_book(draft, place, book);
}

/// A book in a place, its further bytes 1 where it is too short.
fn put_book(draft: &mut PageDraft, place: usize, mut book: Vec<u8>) {
    book.resize(BYTES, 1);
    if let Some(found) = draft.page.get_mut(book_of(place)) {
        found.copy_from_slice(&book);
    }
}

fn free_places(random: &mut Random, draft: &mut PageDraft) {
    for place in 0..PLACES {
        if u64::from(member_in(&draft.page, place)) == FREE {
            fill_behind_the_number(random, &mut draft.page, place);
        }
    }
}

/// Tariff, trip, statement or book, as a trip is damaged that is settled on a book of its own.
fn given_to_settling(random: &mut Random, draft: &mut PageDraft) {
    draft.call = Call::Settle;
    damage::damage(random, &mut draft.draft);
    let own = place_of(&draft.page, draft.association, draft.member);
    if let Some(place) = own.filter(|&place| u64::from(member_in(&draft.page, place)) != FREE) {
        put_book(draft, place, draft.draft.case.book.clone());
    }
}

/// Bits of the numbers, or any.
fn flipped_bits(random: &mut Random, draft: &mut PageDraft) {
    for _ in 0..random.pick(&[1, 1, 2, 8]) {
        let within = if random.chance(70) { NUMBER_BYTES } else { PLACE_BYTES };
        let place = PLACE_BYTES * random.index(PLACES) + random.index(within);
        if let Some(byte) = draft.page.get_mut(place) {
            *byte ^= 1 << random.below(8);
        }
    }
}
