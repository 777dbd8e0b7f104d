//! Trips settled one after another on one book, with damaged cases in between, and quotes and postings beside both.

use super::books::{fresh, sound_at_the_edges};
use super::cases::{Case, Draft};
use super::damage::damage;
use super::fields::Layout;
use super::quotes::beside;
use super::random::Random;
use super::run::{Difference, Run};
use super::tariffs::file;
use super::trips::{plan_in, start};
use crate::model::{read_file, File};
use std::mem::replace;

const STEPS: u64 = 24;

/// Where a chain stands.
struct Chain {
    bytes: Vec<u8>,
    file: File,
    book: Vec<u8>,
    /// The book that the last accepted trip found.
    before: Option<Vec<u8>>,
    /// The check-in of the next trip, where the book has none.
    now: u64,
}

/// A chain of cases: about half of them damaged. What a damaged one leaves is not kept.
pub fn chain(random: &mut Random, run: &mut Run) -> Result<(), Difference> {
    let mut chain = Chain::start(random);
    // In some chains the file changes on the way, so that the book was left by another one.
    let change = if random.chance(40) { random.below(STEPS) } else { STEPS };
    for step in 0..STEPS {
        if step == change {
            chain.change_file(random);
        }
        let mut draft = chain.draft(random);
        if random.chance(58) {
            damage(random, &mut draft);
            let outcome = run.check(&draft.case)?;
            beside(random, run, &draft.case, &outcome, chain.before.as_deref())?;
        } else {
            let outcome = run.check(&draft.case)?;
            beside(random, run, &draft.case, &outcome, chain.before.as_deref())?;
            match outcome.answer {
                Ok(_) => chain.before = Some(replace(&mut chain.book, outcome.book)),
                // At the end of the century, before the first edition, or with a book that the present file cannot read.
                Err(_) => (chain.book, chain.before, chain.now) = (fresh(), None, start(random)),
            }
        }
    }
    Ok(())
}

impl Chain {
    fn start(random: &mut Random) -> Chain {
        let now = start(random);
        let mut chain =
            Chain { bytes: Vec::new(), file: File { editions: Vec::new() }, book: fresh(), before: None, now };
        chain.change_file(random);
        if random.chance(25) {
            chain.book = sound_at_the_edges(random, &chain.file.areas(), now);
        }
        chain
    }

    fn change_file(&mut self, random: &mut Random) {
        self.bytes = file(random, self.now);
        self.file = read_file(&self.bytes).expect("the makers of files make no faults");
    }

    /// The next trip, as a case.
    fn draft(&self, random: &mut Random) -> Draft {
        let (plan, edition) = plan_in(random, &self.file, &self.book, self.now);
        let parts = plan.parts(self.file.tariff(edition));
        let case = Case {
            tariff: self.bytes.clone(),
            book: self.book.clone(),
            trip: plan.bytes(),
            room: 0,
            story: vec!["a trip in a chain"],
        };
        let mut draft = Draft { case, layouts: Layout::all_of(&self.file), edition, plan, parts };
        draft.case.room = draft.statement_bytes() + random.pick(&[0, 0, 1, 2, 5, 120]);
        draft
    }
}
