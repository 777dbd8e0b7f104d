//! Makes a call under a ceiling on both sides, and compares.

use super::calls::MonthCase;
use crate::differential::report::{books_differ, slices_differ};
use crate::differential::run::{blank_statement, Difference, Run};
use crate::model::{self, Refusal};

/// What the model made of a call; where there is no difference, the other side made the same of it.
pub struct Left {
    pub answer: Result<usize, Refusal>,
    pub kept: Vec<u8>,
    pub book: Vec<u8>,
    pub statement: Vec<u8>,
    pub due: Vec<u8>,
}

impl Run {
    /// Makes the call on both sides, and answers what it leaves.
    pub fn check_month(&mut self, case: &MonthCase) -> Result<Left, Difference> {
        self.next_case(|| case.in_words());
        let statement = blank_statement(case.case.room, self.case);
        let due = blank_statement(case.due, self.case + 1);
        let left = by_the_model(case, &statement, &due);
        let number = self.call_in_a_month(case, &statement, &due);
        let faults = self.month_faults(case, [&statement, &due], &left, number);
        if !faults.is_empty() {
            return Err(self.told(&case.in_words(), &faults));
        }
        self.counts.months.count(case, &left);
        Ok(left)
    }

    /// Makes the call on the other side, each slice beside a protected page of memory.
    fn call_in_a_month(&mut self, case: &MonthCase, statement: &[u8], due: &[u8]) -> u64 {
        let sides = [0, 1, 2, 3, 4, 5].map(|slice| self.page(slice));
        self.pair.hold(&case.kept, sides[0]);
        self.tariff.hold(&case.case.tariff, sides[1]);
        self.book.hold(&case.case.book, sides[2]);
        self.trip.hold(&case.case.trip, sides[3]);
        self.fourth.hold(statement, sides[4]);
        self.due.hold(due, sides[5]);
        let Run { functions, pair, tariff, book, trip, fourth, due, .. } = self;
        (functions.settle_month)(
            case.ceiling,
            pair.bytes_mut(),
            tariff.bytes(),
            book.bytes_mut(),
            trip.bytes(),
            fourth.bytes_mut(),
            due.bytes_mut(),
        )
    }

    /// What is wrong after the other side was called, with this statement and these bytes for what is due, and answered this
    /// number.
    fn month_faults(&self, case: &MonthCase, lent: [&[u8]; 2], model: &Left, number: u64) -> Vec<String> {
        let name = self.name;
        let mut faults: Vec<String> = self.answers_differ(model.answer, number).into_iter().collect();
        faults.extend(slices_differ("what is kept", &model.kept, self.pair.bytes(), name));
        faults.extend(books_differ(&model.book, self.book.bytes(), name));
        faults.extend(slices_differ("the statement", &model.statement, self.fourth.bytes(), name));
        faults.extend(slices_differ("what is due", &model.due, self.due.bytes(), name));
        let [statement, due] = lent;
        let written = [
            ("what is kept", &self.pair, &case.kept[..]),
            ("the book", &self.book, &case.case.book),
            ("the statement", &self.fourth, statement),
            ("what is due", &self.due, due),
        ];
        let changed = written.into_iter().filter(|(_, slice, before)| number >> 32 != 0 && slice.bytes() != *before);
        faults.extend(changed.map(|(what, ..)| format!("{name} refused, and changed {what}")));
        let read = [("tariff", &self.tariff, &case.case.tariff), ("trip", &self.trip, &case.case.trip)];
        let changed = read.into_iter().filter(|(_, slice, before)| slice.bytes() != *before);
        faults.extend(changed.map(|(what, ..)| format!("{name} changed the {what}")));
        faults.extend(self.beside([
            ("pair", &self.pair),
            ("tariff", &self.tariff),
            ("book", &self.book),
            ("trip", &self.trip),
            ("statement", &self.fourth),
            ("amount due", &self.due),
        ]));
        faults
    }
}

pub fn by_the_model(case: &MonthCase, statement: &[u8], due: &[u8]) -> Left {
    let (mut kept, mut book) = (case.kept.clone(), case.case.book.clone());
    let (mut statement, mut due) = (statement.to_vec(), due.to_vec());
    let (tariff, trip) = (&case.case.tariff, &case.case.trip);
    let answer = model::settle_month(case.ceiling, &mut kept, tariff, &mut book, trip, &mut statement, &mut due);
    Left { answer, kept, book, statement, due }
}
