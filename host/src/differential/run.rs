//! Runs one case after another on both sides, and compares.

use super::cases::{Call, Case};
use super::counts::Counts;
use super::functions::{number_of, Functions};
use super::guarded::{Guarded, Page};
use super::offers::Offer;
use super::report::{answer_in_words, asked_in_words, books_differ, call_in_words, case_in_words, slices_differ};
use super::signals::{now_at, set_alarm};
use super::statements::Asked;
use crate::model::statement::ChargeRecord;
use crate::model::{self, Refusal};
use std::mem::take;

/// A difference, in words.
pub type Difference = String;

pub struct Run {
    /// What is compared with the model.
    pub(super) name: &'static str,
    pub(super) functions: Functions,
    pub(super) tariff: Guarded,
    pub(super) book: Guarded,
    pub(super) trip: Guarded,
    /// The statement, a posting's record, the fields of a reading, or the statements of a corrected roll.
    pub(super) fourth: Guarded,
    /// A statement that is read.
    kept: Guarded,
    /// A page of accounts, and the number that the last call on one answered.
    pub(super) accounts: Guarded,
    pub(super) answer: u64,
    /// What is kept under a ceiling, and what is due, or the differences of a correction.
    pub(super) pair: Guarded,
    pub(super) due: Guarded,
    /// A roll that is corrected.
    pub(super) roll: Guarded,
    /// What was settled in this part of the run.
    settled: Vec<Vec<u8>>,
    /// The last tariff that was checked alone.
    checked: Vec<u8>,
    pub counts: Counts,
    /// Whether each case is printed before it is run.
    print: bool,
    seed: u64,
    part: u64,
    /// Counted from 1 in each part.
    pub(super) case: u64,
}

/// What the model made of a case; where there is no difference, the other side made the same of it.
pub struct Outcome {
    pub answer: Result<usize, Refusal>,
    pub book: Vec<u8>,
    /// The statement, or a posting's record.
    fourth: Vec<u8>,
}

impl Outcome {
    /// The charge records that settling or a quote wrote; nothing where it refused.
    pub fn records(&self) -> Option<&[u8]> {
        self.answer.ok().map(|written| &self.fourth[..written])
    }
}

impl Run {
    pub fn of(name: &'static str, functions: Functions, print: bool) -> Run {
        let [tariff, book, trip, fourth, kept, accounts, pair, due, roll] = [(); 9].map(|_| Guarded::new());
        let (settled, checked, counts) = (Vec::new(), Vec::new(), Counts::default());
        let (answer, seed, part, case) = (0, 0, 0, 0);
        Run {
            name,
            functions,
            tariff,
            book,
            trip,
            fourth,
            kept,
            accounts,
            answer,
            pair,
            due,
            roll,
            settled,
            checked,
            counts,
            print,
            seed,
            part,
            case,
        }
    }

    pub fn start_part(&mut self, seed: u64, part: u64) {
        set_alarm();
        (self.seed, self.part, self.case) = (seed, part, 0);
    }

    /// Settles a case on both sides.
    pub fn check(&mut self, case: &Case) -> Result<Outcome, Difference> {
        let outcome = self.run(case, Call::Settle)?;
        self.check_tariff(case)?;
        match outcome.answer {
            Ok(written) => {
                let records = &outcome.fourth[..written];
                self.settled.push(records.to_vec());
                let records = ChargeRecord::read_all(records).expect("the model writes charge records");
                self.counts.count_accepted(case, &records);
            }
            Err(refusal) => self.counts.count_refused(case, refusal.number),
        }
        Ok(outcome)
    }

    /// Checks the tariff alone on both sides, unless it is the last one again. It still stands beside its protected page.
    fn check_tariff(&mut self, case: &Case) -> Result<(), Difference> {
        if self.checked == case.tariff {
            return Ok(());
        }
        self.checked.clone_from(&case.tariff);
        let due = model::check_tariff(&case.tariff);
        let number = (self.functions.check)(self.tariff.bytes());
        if number != number_of(due) || self.tariff.bytes() != case.tariff {
            let (due, found) = (number_of(due), number);
            let fault = format!("checked alone, the tariff is {due:#x} by the model and {found:#x} by {}", self.name);
            return Err(self.difference(case, Call::Settle, &[fault]));
        }
        self.counts.count_tariff(due.is_ok());
        Ok(())
    }

    /// Quotes a case on both sides.
    pub fn check_quote(&mut self, case: &Case) -> Result<Outcome, Difference> {
        let outcome = self.run(case, Call::Quote)?;
        self.counts.quotes.count_quote(outcome.answer);
        Ok(outcome)
    }

    /// Posts a case on both sides with this record, which was made so.
    pub fn check_post(&mut self, case: &Case, record: &[u8], offer: Offer) -> Result<Outcome, Difference> {
        let outcome = self.run(case, Call::Post(record))?;
        self.counts.quotes.count_posting(offer, outcome.answer);
        Ok(outcome)
    }

    /// The statements that were settled since the part began or they were taken last.
    pub fn take_settled(&mut self) -> Vec<Vec<u8>> {
        take(&mut self.settled)
    }

    /// Reads a record on both sides. The answer is its bytes, or nothing where it is refused.
    pub fn check_read(&mut self, asked: &Asked) -> Result<Option<usize>, Difference> {
        self.next_case(|| asked_in_words(asked));
        let lent = blank_statement(asked.room, self.case);
        let mut due = lent.clone();
        let answer = model::read(&asked.statement, asked.at, &mut due);
        self.kept.hold(&asked.statement, self.page(0));
        self.fourth.hold(&lent, self.page(1));
        let Run { functions, kept, fourth, .. } = self;
        let is_locked = self.case.is_multiple_of(16);
        let number = kept.locked(is_locked, |kept| (functions.read)(kept, asked.at, fourth.bytes_mut()));
        let name = self.name;
        let mut faults: Vec<String> = self.answers_differ(answer, number).into_iter().collect();
        faults.extend(slices_differ("the fields", &due, self.fourth.bytes(), name));
        if number >> 32 != 0 && self.fourth.bytes() != lent {
            faults.push(format!("{name} refused, and changed the fields"));
        }
        if self.kept.bytes() != asked.statement {
            faults.push(format!("{name} changed the statement"));
        }
        faults.extend(self.beside([("statement", &self.kept), ("fields", &self.fourth)]));
        if !faults.is_empty() {
            return Err(self.difference_reading(asked, &faults));
        }
        self.counts.readings.count(asked, answer);
        Ok(answer.ok())
    }

    /// A case begins; it is told where each is printed.
    pub(super) fn next_case(&mut self, told: impl FnOnce() -> String) {
        self.case += 1;
        now_at(self.seed, self.part, self.case);
        if self.print {
            println!("case {}\n{}", self.case, told());
        }
    }

    /// Which side the protected page is on, for one of the slices of this case.
    pub(super) fn page(&self, slice: u32) -> Page {
        if (self.case >> slice) & 1 == 0 {
            Page::After
        } else {
            Page::Before
        }
    }

    /// Makes a call on both sides.
    fn run(&mut self, case: &Case, call: Call) -> Result<Outcome, Difference> {
        self.next_case(|| case_in_words(case) + &call_in_words(case, call));
        let lent = match call {
            Call::Post(record) => record.to_vec(),
            _ => blank_statement(case.room, self.case),
        };
        let (mut book, mut fourth) = (case.book.clone(), lent.clone());
        let answer = match call {
            Call::Settle => model::settle(&case.tariff, &mut book, &case.trip, &mut fourth),
            Call::Quote => model::quote(&case.tariff, &book, &case.trip, &mut fourth),
            Call::Post(_) => model::post(&case.tariff, &mut book, &case.trip, &fourth),
        };
        let outcome = Outcome { answer, book, fourth };
        let number = self.call_guarded(case, call, &lent);
        let faults = self.faults(case, call, &lent, &outcome, number);
        if faults.is_empty() {
            Ok(outcome)
        } else {
            Err(self.difference(case, call, &faults))
        }
    }

    /// Makes the call on the other side, each slice beside a protected page. Which side the page is on changes from case to
    /// case, for each slice by itself. At times what is only read lies in protected pages itself.
    fn call_guarded(&mut self, case: &Case, call: Call, lent: &[u8]) -> u64 {
        let pages = [0, 1, 2, 3].map(|slice| self.page(slice));
        self.tariff.hold(&case.tariff, pages[0]);
        self.book.hold(&case.book, pages[1]);
        self.trip.hold(&case.trip, pages[2]);
        self.fourth.hold(lent, pages[3]);
        let Run { functions, tariff, book, trip, fourth, .. } = self;
        let is_locked = self.case.is_multiple_of(16);
        match call {
            Call::Settle => (functions.settle)(tariff.bytes(), book.bytes_mut(), trip.bytes(), fourth.bytes_mut()),
            Call::Quote => {
                book.locked(is_locked, |book| (functions.quote)(tariff.bytes(), book, trip.bytes(), fourth.bytes_mut()))
            }
            Call::Post(_) => fourth
                .locked(is_locked, |record| (functions.post)(tariff.bytes(), book.bytes_mut(), trip.bytes(), record)),
        }
    }

    /// What is wrong after the other side was called, with this fourth slice, and answered this number.
    fn faults(&self, case: &Case, call: Call, lent: &[u8], model: &Outcome, number: u64) -> Vec<String> {
        let name = self.name;
        let mut faults: Vec<String> = self.answers_differ(model.answer, number).into_iter().collect();
        let is_refused = number >> 32 != 0;
        let (did, fourth) = (if is_refused { "refused" } else { call.done() }, call.fourth());
        faults.extend(books_differ(&model.book, self.book.bytes(), name));
        faults.extend(slices_differ(&format!("the {fourth}"), &model.fourth, self.fourth.bytes(), name));
        if (is_refused || matches!(call, Call::Quote)) && self.book.bytes() != case.book {
            faults.push(format!("{name} {did}, and changed the book"));
        }
        if (is_refused || matches!(call, Call::Post(_))) && self.fourth.bytes() != lent {
            faults.push(format!("{name} {did}, and changed the {fourth}"));
        }
        if self.tariff.bytes() != case.tariff {
            faults.push(format!("{name} changed the tariff"));
        }
        if self.trip.bytes() != case.trip {
            faults.push(format!("{name} changed the trip"));
        }
        let slices = [("tariff", &self.tariff), ("book", &self.book), ("trip", &self.trip), (fourth, &self.fourth)];
        faults.extend(self.beside(slices));
        faults
    }

    pub(super) fn answers_differ(&self, model: Result<usize, Refusal>, number: u64) -> Option<String> {
        let (name, due) = (self.name, number_of(model));
        let told = |due, found| format!("the answer differs\n  by the model: {due}\n  by {name}: {found}");
        (number != due).then(|| told(answer_in_words(due), answer_in_words(number)))
    }

    /// The slices beside which something was written.
    pub(super) fn beside<const MANY: usize>(&self, slices: [(&str, &Guarded); MANY]) -> Vec<String> {
        let broken = slices.into_iter().filter(|(_, slice)| !slice.canaries_stand());
        broken.map(|(what, _)| format!("{} wrote beside the {what}", self.name)).collect()
    }

    /// Tells what is wrong with a call.
    pub fn difference(&self, case: &Case, call: Call, faults: &[String]) -> Difference {
        self.told(&(case_in_words(case) + &call_in_words(case, call)), faults)
    }

    /// Tells what is wrong with a reading.
    pub fn difference_reading(&self, asked: &Asked, faults: &[String]) -> Difference {
        self.told(&asked_in_words(asked), faults)
    }

    pub(super) fn told(&self, what: &str, faults: &[String]) -> Difference {
        let (Run { seed, part, case, .. }, faults) = (self, faults.join("\n"));
        format!("difference at seed {seed}, part {part}, case {case}; --seed {seed} --part {part} repeats it\n{what}{faults}")
    }
}

/// Other bytes in each case, so that one that is written is seen.
pub(super) fn blank_statement(room: usize, case: u64) -> Vec<u8> {
    (0..room).map(|place| (0x5b + 31 * case as usize + 7 * place) as u8).collect()
}
