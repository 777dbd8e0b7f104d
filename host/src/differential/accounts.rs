//! Pages of accounts: members added, settled and closed one after another on one page, with damaged pages in between; and a
//! page with all that lies one step away from it.

mod calls;
mod counts;
mod damage;
mod pages;
mod run;

pub use counts::Accounts;

use super::cases::{Case, Draft};
use super::fields::Layout;
use super::random::Random;
use super::run::{Difference, Run};
use super::tariffs::file;
use super::trips::{plan_in, start};
use crate::model::page::{FREE, PAGE_BYTES, PLACES, PLACE_BYTES};
use crate::model::{read_file, File};
use calls::{Call, PageCase};
use damage::damage;
use pages::{
    book_of, book_to_plan_on, is_taken, member_in, members_in, other_half, page_with, pool, put_number, some_book,
    OUTSIDE,
};

const STEPS: u64 = 24;

/// Where a chain stands.
struct Chain {
    bytes: Vec<u8>,
    file: File,
    page: Vec<u8>,
    /// Who is added, settled and closed, in both associations.
    pool: Vec<u32>,
    /// The check-in of a member's next trip, where the book has none.
    now: u64,
}

/// A chain of calls of both associations on one page: a third of them damaged. What a damaged one leaves is not kept. Some are
/// made with another half for the other association besides.
pub fn chain(random: &mut Random, run: &mut Run) -> Result<(), Difference> {
    let many = [(); 2].map(|()| random.pick(&[0, 1, 3, 5, 6, 6]));
    let mut chain = Chain::start(random, many);
    for _ in 0..STEPS {
        let mut case = chain.next(random);
        let is_damaged = random.chance(35);
        if is_damaged {
            damage(random, &mut case);
        }
        let case = case.page_case();
        let left = if random.chance(25) && case.page.len() == PAGE_BYTES {
            let other = other_half(random, &case.page, case.association);
            run.check_twins(&case, &other)?
        } else {
            run.check_page(&case)?
        };
        if !is_damaged {
            chain.page = left;
        }
    }
    Ok(())
}

/// A call on a page with what its trip was made of, before any damage.
pub struct PageDraft {
    pub page: Vec<u8>,
    pub association: u32,
    pub member: u32,
    pub call: Call,
    /// Tariff, trip and the statement's length; the book is the member's, and not given.
    pub draft: Draft,
    pub story: Vec<&'static str>,
}

impl PageDraft {
    fn page_case(&self) -> PageCase {
        let Case { tariff, trip, room, .. } = self.draft.case.clone();
        let story = [self.story.clone(), self.draft.case.story.clone()].concat();
        let PageDraft { association, member, call, .. } = *self;
        PageCase { page: self.page.clone(), association, member, call, tariff, trip, room, story }
    }
}

impl Chain {
    fn start(random: &mut Random, many: [usize; 2]) -> Chain {
        let now = start(random);
        let bytes = file(random, now);
        let file = read_file(&bytes).expect("the makers of files make no faults");
        let pool = pool(random);
        let page = page_with(random, many, &pool, &file.areas(), now);
        Chain { bytes, file, page, pool, now }
    }

    /// The next call: mostly with a member who is there, but for adding.
    fn next(&self, random: &mut Random) -> PageDraft {
        let call = random.pick(&[Call::Add, Call::Add, Call::Close, Call::Settle, Call::Settle, Call::Settle]);
        let is_there = random.chance(if call == Call::Add { 20 } else { 85 });
        let association = random.pick(&[0, 1]);
        let is_it = |member: &u32| is_taken(&self.page, association, *member) == is_there;
        let some: Vec<u32> = self.pool.iter().copied().filter(is_it).collect();
        let member = if some.is_empty() { random.pick(&self.pool) } else { random.pick(&some) };
        self.draft(random, call, association, member)
    }

    /// A call for a member; the trip is one that fits that member's book.
    fn draft(&self, random: &mut Random, call: Call, association: u32, member: u32) -> PageDraft {
        let book = book_to_plan_on(&self.page, association, member, &self.file.areas());
        let (plan, edition) = plan_in(random, &self.file, &book, self.now);
        let parts = plan.parts(self.file.tariff(edition));
        let case = Case { tariff: self.bytes.clone(), book, trip: plan.bytes(), room: 0, story: Vec::new() };
        let mut draft = Draft { case, layouts: Layout::all_of(&self.file), edition, plan, parts };
        draft.case.room = draft.statement_bytes() + random.pick(&[0, 0, 1, 5, 120]);
        PageDraft { page: self.page.clone(), association, member, call, draft, story: vec!["a call in a chain"] }
    }
}

/// A page with three members of each association, and all that lie one step away from it, each with every call: associations,
/// lengths, numbers asked for, numbers stored in each place, each two places with one number. And a member added where each set
/// of places is taken.
pub fn sweep(random: &mut Random, run: &mut Run) -> Result<(), Difference> {
    let chain = Chain::start(random, [3, 3]);
    for call in Call::ALL {
        for association in [0, 1] {
            let members = members_in(&chain.page, association);
            let absent = chain.pool[chain.pool.len() - 1];
            let member = if call == Call::Add { absent } else { random.pick(&members) };
            let mut good = chain.draft(random, call, association, member);
            good.story = vec!["a step away from a good page"];
            associations(run, &good)?;
            lengths(run, &good)?;
            numbers_asked_for(run, &good, &members)?;
            numbers_stored(run, &good)?;
            numbers_stored_twice(run, &good)?;
        }
    }
    taken_places(random, run, &chain)
}

/// Also where 18 holds: with a page that is too short, and with a number that no member has.
fn associations(run: &mut Run, good: &PageDraft) -> Result<(), Difference> {
    for association in [0, 1, 2, 3, 6, 255, 256, 257, 1 << 16, 1 << 31, u32::MAX] {
        let case = PageCase { association, ..good.page_case() };
        run.check_page(&case)?;
        run.check_page(&PageCase { page: good.page[1..].to_vec(), ..case.clone() })?;
        run.check_page(&PageCase { member: 0, ..case })?;
    }
    Ok(())
}

fn lengths(run: &mut Run, good: &PageDraft) -> Result<(), Difference> {
    let around = |length: usize| [length.saturating_sub(1), length, length + 1];
    let lengths = [0, 4, PLACE_BYTES, PAGE_BYTES - PLACE_BYTES, PAGE_BYTES, PAGE_BYTES + PLACE_BYTES].map(around);
    for length in lengths.concat() {
        let mut case = good.page_case();
        case.page.resize(length, 0);
        run.check_page(&case)?;
    }
    Ok(())
}

fn numbers_asked_for(run: &mut Run, good: &PageDraft, members: &[u32]) -> Result<(), Difference> {
    for member in [1, 2, 999_999_998, 999_999_999].iter().chain(&OUTSIDE).chain(&[0]).chain(members) {
        run.check_page(&PageCase { member: *member, ..good.page_case() })?;
    }
    Ok(())
}

/// Each number in each place, and each bit of the numbers flipped.
fn numbers_stored(run: &mut Run, good: &PageDraft) -> Result<(), Difference> {
    for place in 0..PLACES {
        let flipped = (0..32).map(|bit| member_in(&good.page, place) ^ (1 << bit));
        for number in [FREE as u32, 1, 999_999_999].into_iter().chain(OUTSIDE).chain(flipped) {
            let mut case = good.page_case();
            put_number(&mut case.page, place, number);
            run.check_page(&case)?;
        }
    }
    Ok(())
}

/// The number of the member that is asked for, and another's, in each two places.
fn numbers_stored_twice(run: &mut Run, good: &PageDraft) -> Result<(), Difference> {
    for first in 0..PLACES {
        for second in first + 1..PLACES {
            for number in [good.member, 123_456_789] {
                let mut case = good.page_case();
                put_number(&mut case.page, first, number);
                put_number(&mut case.page, second, number);
                run.check_page(&case)?;
            }
        }
    }
    Ok(())
}

/// Adding takes the association's lowest free place, whichever are taken of all twelve.
fn taken_places(random: &mut Random, run: &mut Run, chain: &Chain) -> Result<(), Difference> {
    let good = chain.draft(random, Call::Add, 0, chain.pool[PLACES]);
    for taken in 0..1 << PLACES {
        // Each association has half of the sets: those of an odd or of an even number of members.
        let mut case = PageCase { association: u32::count_ones(taken) % 2, ..good.page_case() };
        for place in 0..PLACES {
            let is_taken = taken >> place & 1 == 1;
            put_number(&mut case.page, place, if is_taken { chain.pool[place] } else { FREE as u32 });
        }
        run.check_page(&case)?;
    }
    Ok(())
}

/// A book of any kind for a place, as it may stand there: not of another length.
fn put_some_book(random: &mut Random, page: &mut [u8], place: usize, areas: &[usize], now: u64) {
    let book = some_book(random, areas, now);
    if let Some(found) = page.get_mut(book_of(place)) {
        found.copy_from_slice(&book);
    }
}
