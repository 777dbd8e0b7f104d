//! What calls on pages came to: how many were accepted, by what they met, and how many refused, by number and cause.

use super::calls::{Call, PageCase};
use super::pages::{book_of, is_sound, member_in, place_of, places_of};
use crate::answer::Refusal as Named;
use crate::differential::books::{word, EDITION, TRIPS};
use crate::differential::counts::NUMBERS;
use crate::model::page::{FREE, LARGEST_NUMBER, PAGE_BYTES, PLACES, PLACES_OF_EACH};
use crate::model::{read_file, Refusal};
use std::fmt;

/// Each cause of 18, and whether it holds; those of what is stored only where the page has its length.
const CAUSES: [(&str, fn(&PageCase) -> bool); 7] = [
    ("a page a byte shorter", |case| case.page.len() == PAGE_BYTES - 1),
    ("a page a byte longer", |case| case.page.len() == PAGE_BYTES + 1),
    ("a page of another length", |case| case.page.len().abs_diff(PAGE_BYTES) > 1),
    ("the number 0 asked for", |case| case.member == 0),
    ("a larger number asked for", |case| u64::from(case.member) > LARGEST_NUMBER),
    ("a larger number stored", |case| numbers(case).any(|number| number > LARGEST_NUMBER)),
    ("a number stored twice", |case| is_doubled(case, |_| true)),
];

/// Of a call and an answer, 0 where it was accepted: a way in which it comes about, and whether it is that of the case. One may be of
/// several.
type Way = (Call, usize, &'static str, fn(&PageCase) -> bool);

const WAYS: [Way; 54] = [
    (Call::Add, 0, "in its first place", |case| free_place(case) == Some(0)),
    (Call::Add, 0, "between two members", |case| {
        let free = free_place(case).expect("accepted, so there is one");
        let is_taken = |place: usize| own(case, place) != FREE;
        (0..free).any(is_taken) && (free..PLACES_OF_EACH).any(is_taken)
    }),
    (Call::Add, 0, "in its last place", |case| free_place(case) == Some(PLACES_OF_EACH - 1)),
    (Call::Add, 0, "where anything stood", |case| {
        let free = place_of(&case.page, case.association, 0).expect("accepted, so there is one");
        case.page[book_of(free)].iter().any(|&byte| byte != 0)
    }),
    (Call::Add, 0, "member 1", |case| case.member == 1),
    (Call::Add, 0, "member 999,999,999", |case| u64::from(case.member) == LARGEST_NUMBER),
    (Call::Add, 0, "a member whose first byte is 0", |case| case.member.is_multiple_of(256)),
    (Call::Add, 0, "association 0", |case| case.association == 0),
    (Call::Add, 0, "association 1", |case| case.association == 1),
    (Call::Add, 0, "18 would hold in the other half", other_half_is_wrong),
    (Call::Add, 0, "the number stands in the other half", is_in_the_other_half),
    (Call::Add, 0, "the other half is full", |case| numbers_of(case, 1).all(|number| number != FREE)),
    (Call::Add, 18, "another's number stored twice, of a member already there", |case| {
        is_doubled(case, |number| number != case.member) && is_there(case)
    }),
    (Call::Add, 19, "a place is free", |case| free_place(case).is_some()),
    (Call::Add, 19, "no place is free, so that 20 holds too", |case| free_place(case).is_none()),
    (Call::Add, 20, "a place is free in the other half", |case| numbers_of(case, 1).any(|number| number == FREE)),
    (Call::Add, 20, "all twelve are taken", |case| numbers_of(case, 1).all(|number| number != FREE)),
    (Call::Add, 21, "18 holds too", eighteen_holds),
    (Call::Add, 21, "18 does not hold", |case| !eighteen_holds(case)),
    (Call::Close, 0, "an open window", |case| word(own_book(case), TRIPS) != 0),
    (Call::Close, 0, "a book that is not sound", |case| !is_sound(own_book(case), &[32, 32])),
    (Call::Close, 0, "the last place", |case| own(case, PLACES_OF_EACH - 1) == case.member.into()),
    (Call::Close, 0, "association 0", |case| case.association == 0),
    (Call::Close, 0, "association 1", |case| case.association == 1),
    (Call::Close, 0, "18 would hold in the other half", other_half_is_wrong),
    (Call::Close, 0, "the number stands in the other half", is_in_the_other_half),
    (Call::Close, 18, "another's number stored twice, of a member who is not there", |case| {
        is_doubled(case, |number| number != case.member) && !is_there(case)
    }),
    (Call::Close, 19, "an empty half", |case| numbers(case).all(|number| number == FREE)),
    (Call::Close, 19, "a half with others", |case| numbers(case).any(|number| number != FREE)),
    (Call::Close, 19, "the number stands in the other half", is_in_the_other_half),
    (Call::Close, 21, "18 holds too", eighteen_holds),
    (Call::Close, 21, "18 does not hold", |case| !eighteen_holds(case)),
    (Call::Settle, 0, "a fresh book", |case| word(own_book(case), TRIPS) == 0),
    (Call::Settle, 0, "an open window", |case| word(own_book(case), TRIPS) != 0),
    (Call::Settle, 0, "beside a book that is not sound", is_beside_unsound),
    (Call::Settle, 0, "anything in a free place", |case| {
        let is_free = |place: &usize| u64::from(member_in(&case.page, *place)) == FREE;
        (0..PLACES).filter(is_free).any(|place| case.page[book_of(place)].iter().any(|&byte| byte != 0))
    }),
    (Call::Settle, 0, "the first place", |case| own(case, 0) == case.member.into()),
    (Call::Settle, 0, "the last place", |case| own(case, PLACES_OF_EACH - 1) == case.member.into()),
    (Call::Settle, 0, "association 0", |case| case.association == 0),
    (Call::Settle, 0, "association 1", |case| case.association == 1),
    (Call::Settle, 0, "18 would hold in the other half", other_half_is_wrong),
    (Call::Settle, 0, "the number stands in the other half", is_in_the_other_half),
    (Call::Settle, 0, "an open window of the second edition", |case| word(own_book(case), EDITION) == 2),
    (Call::Settle, 0, "an open window of the first edition, of two", |case| {
        word(own_book(case), EDITION) == 1 && read_file(&case.tariff).is_ok_and(|file| file.editions.len() == 2)
    }),
    (Call::Settle, 1, "21 or 18 holds too", |case| case.association > 1 || eighteen_holds(case)),
    (Call::Settle, 2, "21 or 18 holds too", |case| case.association > 1 || eighteen_holds(case)),
    (Call::Settle, 3, "21 or 18 holds too", |case| case.association > 1 || eighteen_holds(case)),
    (Call::Settle, 18, "another's number stored twice, of a member who is not there", |case| {
        is_doubled(case, |number| number != case.member) && !is_there(case)
    }),
    (Call::Settle, 19, "of others' books one is not sound", is_beside_unsound),
    (Call::Settle, 19, "the number stands in the other half", is_in_the_other_half),
    (Call::Settle, 21, "18 holds too", eighteen_holds),
    (Call::Settle, 21, "18 does not hold", |case| !eighteen_holds(case)),
    (Call::Settle, 4, "the other books are sound", |case| !is_beside_unsound(case)),
    (Call::Settle, 4, "18 would hold in the other half", other_half_is_wrong),
];

/// What calls with two pages that agree in one half have to meet.
const TWINS: [(Call, &[usize]); 3] =
    [(Call::Add, &[0, 18, 19, 20]), (Call::Close, &[0, 18, 19]), (Call::Settle, &[0, 18, 19, 4])];

/// The numbers stored in the association's half, with `other` 1 those in the other; none where the page has another length.
fn numbers_of(case: &PageCase, other: u32) -> impl Iterator<Item = u64> + '_ {
    let has_its_length = case.page.len() == PAGE_BYTES;
    places_of(case.association ^ other).filter(move |_| has_its_length).map(|place| member_in(&case.page, place).into())
}

fn numbers(case: &PageCase) -> impl Iterator<Item = u64> + '_ {
    numbers_of(case, 0)
}

/// The number in one of the association's own places, counted from 0.
fn own(case: &PageCase, place: usize) -> u64 {
    numbers(case).nth(place).expect("the page has its length")
}

/// The first free one of them.
fn free_place(case: &PageCase) -> Option<usize> {
    numbers(case).position(|number| number == FREE)
}

fn is_there(case: &PageCase) -> bool {
    numbers(case).any(|number| number == case.member.into())
}

fn is_in_the_other_half(case: &PageCase) -> bool {
    numbers_of(case, 1).any(|number| number == case.member.into())
}

/// Whether the other association would be refused with 18, whoever is asked for.
fn other_half_is_wrong(case: &PageCase) -> bool {
    let other = PageCase { association: case.association ^ 1, member: 1, ..case.clone() };
    eighteen_holds(&other)
}

/// Whether a number of this kind is stored twice.
fn is_doubled(case: &PageCase, is_of_it: impl Fn(u32) -> bool) -> bool {
    let all: Vec<u64> = numbers(case).filter(|&number| number != FREE && is_of_it(number as u32)).collect();
    all.iter().enumerate().any(|(place, number)| all[place + 1..].contains(number))
}

fn eighteen_holds(case: &PageCase) -> bool {
    CAUSES.iter().any(|(_, holds)| holds(case))
}

fn own_book(case: &PageCase) -> &[u8] {
    &case.page[book_of(place_of(&case.page, case.association, case.member).expect("accepted, so there is one"))]
}

/// Whether another member's book, in either half, is not sound under the tariff.
fn is_beside_unsound(case: &PageCase) -> bool {
    let areas = read_file(&case.tariff).map_or(Vec::new(), |file| file.areas());
    let own = place_of(&case.page, case.association, case.member);
    let is_anothers = |place: &usize| Some(*place) != own && u64::from(member_in(&case.page, *place)) != FREE;
    (0..PLACES).filter(is_anothers).any(|place| !is_sound(&case.page[book_of(place)], &areas))
}

#[derive(Default)]
pub struct Accounts {
    /// By call: those that were accepted at 0, and those refused by number.
    answers: [[u64; NUMBERS]; 3],
    /// By call: those that were refused by 18 for one cause alone.
    causes: [[u64; CAUSES.len()]; 3],
    ways: Vec<u64>,
    /// By call and answer: those made with two pages that agree in one half.
    twins: [[u64; NUMBERS]; 3],
}

impl Accounts {
    pub fn count(&mut self, case: &PageCase, answer: Result<usize, Refusal>) {
        let given = answer.err().map_or(0, |refusal| refusal.number as usize);
        self.answers[case.call as usize][given] += 1;
        self.ways.resize(WAYS.len(), 0);
        for (count, (call, number, _, is_so)) in self.ways.iter_mut().zip(WAYS) {
            *count += u64::from(call == case.call && number == given && is_so(case));
        }
        if given == 18 {
            let holding: Vec<usize> = (0..CAUSES.len()).filter(|&cause| CAUSES[cause].1(case)).collect();
            if let [cause] = holding[..] {
                self.causes[case.call as usize][cause] += 1;
            }
        }
    }

    pub fn count_twins(&mut self, case: &PageCase, answer: u64) {
        self.twins[case.call as usize][(answer >> 32) as usize] += 1;
    }

    pub fn calls(&self) -> u64 {
        self.answers.as_flattened().iter().sum()
    }

    /// What was not met at all.
    pub fn too_few(&self) -> Vec<String> {
        let told = |call: Call, number, way| format!("{} a member, {number}, {way}", call.doing());
        let mut all = Vec::new();
        for call in Call::ALL {
            let missing = due(call).into_iter().filter(|&number| self.answers[call as usize][number] == 0);
            all.extend(missing.map(|number| told(call, number, "in any way")));
            let causes = CAUSES.iter().zip(self.causes[call as usize]).filter(|(_, count)| *count == 0);
            all.extend(causes.map(|((cause, _), _)| told(call, 18, cause)));
        }
        let ways = WAYS.iter().zip(&self.ways).filter(|(_, &count)| count == 0);
        all.extend(ways.map(|((call, number, way, _), _)| told(*call, *number, way)));
        for (call, due) in TWINS {
            let missing = due.iter().filter(|&&number| self.twins[call as usize][number] == 0);
            all.extend(missing.map(|&number| told(call, number, "with two pages that agree in one half")));
        }
        all
    }
}

/// The answers that have to be met: 0 for acceptance, and the refusals that the call has.
fn due(call: Call) -> Vec<usize> {
    match call {
        Call::Add => vec![0, 21, 18, 19, 20],
        Call::Close => vec![0, 21, 18, 19],
        Call::Settle => {
            [0, 21, 18, 19].into_iter().chain(Named::of_settling().map(|refusal| refusal as usize)).collect()
        }
    }
}

impl fmt::Display for Accounts {
    fn fmt(&self, out: &mut fmt::Formatter) -> fmt::Result {
        writeln!(out, "calls on pages {}; one may be of several kinds", self.calls())?;
        for call in Call::ALL {
            for given in due(call) {
                let text = Named::of(given as u64)
                    .map_or("accepted".to_string(), |refusal| format!("refused by {given} ({})", refusal.text()));
                writeln!(out, "  {:>8}  {} a member, {text}", self.answers[call as usize][given], call.doing())?;
                let causes = CAUSES.iter().zip(self.causes[call as usize]).filter(|_| given == 18);
                for ((cause, _), count) in causes {
                    writeln!(out, "  {count:>8}    {cause} alone")?;
                }
                let ways = WAYS.iter().zip(&self.ways).filter(|(way, _)| way.0 == call && way.1 == given);
                for ((_, _, way, _), count) in ways {
                    writeln!(out, "  {count:>8}    {way}")?;
                }
            }
        }
        writeln!(out, "  of them made with two pages that agree in one half, accepted and refused by number:")?;
        for (call, due) in TWINS {
            let counts = due.iter().map(|&number| format!("{number}: {}", self.twins[call as usize][number]));
            writeln!(out, "    {} a member {}", call.doing(), counts.collect::<Vec<String>>().join(", "))?;
        }
        Ok(())
    }
}
