//! Makes a call on a page on both sides, and compares.

use super::calls::{Call, PageCase};
use super::pages::half_of;
use crate::differential::report::slices_differ;
use crate::differential::run::{blank_statement, Difference, Run};
use crate::model::page::PLACE_BYTES;
use crate::model::{self, Refusal};

/// What the model made of a case.
struct Outcome {
    answer: Result<usize, Refusal>,
    page: Vec<u8>,
    statement: Vec<u8>,
}

impl Run {
    /// Makes the call on both sides with two pages that agree in the half of the association that is asked for: what it is told,
    /// what it is charged and what is left in its half are the same.
    pub fn check_twins(&mut self, case: &PageCase, other: &[u8]) -> Result<Vec<u8>, Difference> {
        let twin = PageCase { page: other.to_vec(), ..case.clone() };
        let own = half_of(case.association);
        assert!(
            case.page.len() == other.len() && case.page[own.clone()] == other[own.clone()],
            "they agree in that half"
        );
        let left = self.check_page(case)?;
        let (answer, statement) = (self.answer, self.fourth.bytes().to_vec());
        let left_of_twin = self.check_page(&twin)?;
        let mut faults = Vec::new();
        if self.answer != answer {
            faults.push("another answer than with another half of the page".to_string());
        }
        // The lent bytes of a statement differ from case to case; what was written to it does not.
        let written = if answer >> 32 == 0 && case.call == Call::Settle { answer as usize } else { 0 };
        if self.fourth.bytes()[..written] != statement[..written] {
            faults.push("other charge records than with another half of the page".to_string());
        }
        if left[own.clone()] != left_of_twin[own] {
            faults.push("something else is left in the half than with another half of the page".to_string());
        }
        if !faults.is_empty() {
            return Err(self.told(&twin.in_words(), &faults));
        }
        self.counts.accounts.count_twins(case, answer);
        Ok(left)
    }

    /// Makes the call on both sides, and answers the page that it leaves.
    pub fn check_page(&mut self, case: &PageCase) -> Result<Vec<u8>, Difference> {
        self.next_case(|| case.in_words());
        let lent = blank_statement(case.room, self.case);
        let outcome = by_the_model(case, &lent);
        let number = self.call_on_a_page(case, &lent);
        let faults = self.page_faults(case, &lent, &outcome, number);
        if !faults.is_empty() {
            return Err(self.told(&case.in_words(), &faults));
        }
        self.answer = number;
        self.counts.accounts.count(case, outcome.answer);
        Ok(outcome.page)
    }

    /// Makes the call on the other side, each slice beside a protected page of memory.
    fn call_on_a_page(&mut self, case: &PageCase, lent: &[u8]) -> u64 {
        let sides = [0, 1, 2, 3].map(|slice| self.page(slice));
        self.tariff.hold(&case.tariff, sides[0]);
        self.accounts.hold(&case.page, sides[1]);
        self.trip.hold(&case.trip, sides[2]);
        self.fourth.hold(lent, sides[3]);
        let Run { functions, tariff, accounts, trip, fourth, .. } = self;
        let page = accounts.bytes_mut();
        match case.call {
            Call::Add => (functions.add)(page, case.association, case.member),
            Call::Close => (functions.close)(page, case.association, case.member),
            Call::Settle => {
                let PageCase { association, member, .. } = *case;
                (functions.settle_member)(tariff.bytes(), page, association, member, trip.bytes(), fourth.bytes_mut())
            }
        }
    }

    /// What is wrong after the other side was called, with this statement, and answered this number.
    fn page_faults(&self, case: &PageCase, lent: &[u8], model: &Outcome, number: u64) -> Vec<String> {
        let name = self.name;
        let mut faults: Vec<String> = self.answers_differ(model.answer, number).into_iter().collect();
        faults.extend(pages_differ(&model.page, self.accounts.bytes(), name));
        faults.extend(slices_differ("the statement", &model.statement, self.fourth.bytes(), name));
        let is_refused = number >> 32 != 0;
        if is_refused && self.accounts.bytes() != case.page {
            faults.push(format!("{name} refused, and changed the page"));
        }
        if (is_refused || case.call != Call::Settle) && self.fourth.bytes() != lent {
            faults.push(format!("{name} {}, and changed the statement", case.call.done()));
        }
        if self.tariff.bytes() != case.tariff {
            faults.push(format!("{name} changed the tariff"));
        }
        if self.trip.bytes() != case.trip {
            faults.push(format!("{name} changed the trip"));
        }
        let slices =
            [("tariff", &self.tariff), ("page", &self.accounts), ("trip", &self.trip), ("statement", &self.fourth)];
        faults.extend(self.beside(slices));
        faults
    }
}

fn by_the_model(case: &PageCase, lent: &[u8]) -> Outcome {
    let (mut page, mut statement) = (case.page.clone(), lent.to_vec());
    let answer = match case.call {
        Call::Add => model::add(&mut page, case.association, case.member),
        Call::Close => model::close(&mut page, case.association, case.member),
        Call::Settle => {
            let PageCase { association, member, .. } = *case;
            model::settle_member(&case.tariff, &mut page, association, member, &case.trip, &mut statement)
        }
    };
    Outcome { answer, page, statement }
}

/// Where two pages differ first, and in how many bytes; nothing where they are equal.
fn pages_differ(model: &[u8], other: &[u8], name: &str) -> Option<String> {
    let at = model.iter().zip(other).position(|(due, found)| due != found)?;
    let many = model.iter().zip(other).filter(|(due, found)| due != found).count();
    let (place, within) = (at / PLACE_BYTES, at % PLACE_BYTES);
    let (due, found) = (model[at], other[at]);
    Some(format!("{many} bytes of the page differ, first byte {within} of place {place}: {due:02x} by the model, {found:02x} by {name}"))
}
