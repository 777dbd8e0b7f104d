//! Makes a correction on both sides, and compares.

use super::calls::CorrectionCase;
use crate::differential::report::slices_differ;
use crate::differential::run::{blank_statement, Difference, Run};
use crate::model::{self, Refusal};

/// What the model made of a correction; where there is no difference, the other side made the same of it.
pub struct Left {
    pub answer: Result<usize, Refusal>,
    pub statements: Vec<u8>,
    pub differences: Vec<u8>,
}

impl Run {
    /// Makes the correction on both sides, and answers what it leaves.
    pub fn check_correction(&mut self, case: &CorrectionCase) -> Result<Left, Difference> {
        self.next_case(|| case.in_words());
        let statements = blank_statement(case.room, self.case);
        let differences = blank_statement(case.differences, self.case + 1);
        let left = by_the_model(case, &statements, &differences);
        let number = self.call_to_correct(case, &statements, &differences);
        let faults = self.correction_faults(case, [&statements, &differences], &left, number);
        if !faults.is_empty() {
            return Err(self.told(&case.in_words(), &faults));
        }
        self.counts.corrections.count(case, &left);
        Ok(left)
    }

    /// Makes the call on the other side, each slice beside a protected page of memory.
    fn call_to_correct(&mut self, case: &CorrectionCase, statements: &[u8], differences: &[u8]) -> u64 {
        let sides = [0, 1, 2, 3, 4].map(|slice| self.page(slice));
        self.tariff.hold(&case.tariff, sides[0]);
        self.roll.hold(&case.roll, sides[1]);
        self.trip.hold(&case.replacement, sides[2]);
        self.fourth.hold(statements, sides[3]);
        self.due.hold(differences, sides[4]);
        let Run { functions, tariff, roll, trip, fourth, due, .. } = self;
        (functions.correct)(tariff.bytes(), roll.bytes(), case.n, trip.bytes(), fourth.bytes_mut(), due.bytes_mut())
    }

    /// What is wrong after the other side was called, with these bytes for statements and differences, and answered this number.
    fn correction_faults(&self, case: &CorrectionCase, lent: [&[u8]; 2], model: &Left, number: u64) -> Vec<String> {
        let name = self.name;
        let mut faults: Vec<String> = self.answers_differ(model.answer, number).into_iter().collect();
        faults.extend(slices_differ("the statements", &model.statements, self.fourth.bytes(), name));
        faults.extend(slices_differ("the differences", &model.differences, self.due.bytes(), name));
        let written = [("the statements", &self.fourth), ("the differences", &self.due)].into_iter().zip(lent);
        let changed = written.filter(|((_, slice), before)| number >> 32 != 0 && slice.bytes() != *before);
        faults.extend(changed.map(|((what, _), _)| format!("{name} refused, and changed {what}")));
        let read = [
            ("tariff", &self.tariff, &case.tariff),
            ("roll", &self.roll, &case.roll),
            ("replacement", &self.trip, &case.replacement),
        ];
        let changed = read.into_iter().filter(|(_, slice, before)| slice.bytes() != *before);
        faults.extend(changed.map(|(what, ..)| format!("{name} changed the {what}")));
        faults.extend(self.beside([
            ("tariff", &self.tariff),
            ("roll", &self.roll),
            ("replacement", &self.trip),
            ("statements", &self.fourth),
            ("differences", &self.due),
        ]));
        faults
    }
}

pub fn by_the_model(case: &CorrectionCase, statements: &[u8], differences: &[u8]) -> Left {
    let (mut statements, mut differences) = (statements.to_vec(), differences.to_vec());
    let CorrectionCase { tariff, roll, n, replacement, .. } = case;
    let answer = model::correct(tariff, roll, *n, replacement, &mut statements, &mut differences);
    Left { answer, statements, differences }
}
