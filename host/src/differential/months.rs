//! Trips settled one after another under a monthly ceiling, on one book and one kept pair, with damaged calls in between; and
//! all that lies one step away from some good ones: ceilings, pairs, lengths, and the end of every month.

mod calls;
mod counts;
mod damage;
mod run;

pub use counts::Months;

use super::books::fresh;
use super::cases::{Case, Draft};
use super::fields::Layout;
use super::random::Random;
use super::run::{Difference, Run};
use super::tariffs::file;
use super::trips::{before_a_months_end, days_in_month, plan_in, start, Plan, DAY, HOUR};
use crate::model::month::{Kept, DUE_BYTES, KEPT_BYTES, MOST};
use crate::model::parts::parts_of;
use crate::model::statement::LARGEST_STATEMENT;
use crate::model::{read_file, File};
use calls::MonthCase;
use damage::damage;

const STEPS: u64 = 24;

const SAMPLE: &[u8] = include_bytes!("../../../samples/tariff.bin");

/// Where a chain stands.
struct Chain {
    bytes: Vec<u8>,
    file: File,
    book: Vec<u8>,
    kept: Vec<u8>,
    ceiling: u32,
    /// The check-in of the next trip, where the book has none.
    now: u64,
}

/// A chain of calls: a third of them damaged. What a damaged one leaves is not kept.
pub fn chain(random: &mut Random, run: &mut Run) -> Result<(), Difference> {
    let mut chain = Chain::start(random);
    for _ in 0..STEPS {
        chain.change_ceiling(random);
        let mut draft = chain.draft(random);
        let is_damaged = random.chance(35);
        if is_damaged {
            damage(random, &mut draft);
        }
        let left = run.check_month(&draft.month_case())?;
        if !is_damaged {
            match left.answer {
                Ok(_) => (chain.book, chain.kept) = (left.book, left.kept),
                // At the end of the century, or before the first edition. The pair stays, so that a later month is kept.
                Err(_) => (chain.book, chain.now) = (fresh(), start(random)),
            }
        }
    }
    Ok(())
}

/// A call with what its trip was made of, before any damage.
pub struct MonthDraft {
    pub ceiling: u32,
    pub kept: Vec<u8>,
    /// Bytes of the slice for what is due.
    pub due: usize,
    pub draft: Draft,
}

impl MonthDraft {
    fn month_case(&self) -> MonthCase {
        let MonthDraft { ceiling, kept, due, draft } = self;
        MonthCase { ceiling: *ceiling, kept: kept.clone(), due: *due, case: draft.case.clone() }
    }
}

impl Chain {
    /// Mostly shortly before the end of a month, so that the trips go over it.
    fn start(random: &mut Random) -> Chain {
        let now = if random.chance(60) { before_a_months_end(random, 300) } else { start(random) };
        let bytes = file(random, now);
        let file = read_file(&bytes).expect("the makers of files make no faults");
        let ceiling = some_ceiling(random);
        Chain { bytes, file, book: fresh(), kept: vec![0; KEPT_BYTES], ceiling, now }
    }

    /// Mostly it is held; else another one, or one at or just below what was collected.
    fn change_ceiling(&mut self, random: &mut Random) {
        let amount = Kept::read(&self.kept).map_or(0, |kept| kept.amount as u32);
        match random.below(20) {
            0 => self.ceiling = some_ceiling(random),
            1 => self.ceiling = amount.saturating_sub(random.pick(&[0, 1, 100])),
            2 => self.ceiling = (amount + random.below(400) as u32).min(MOST as u32),
            _ => (),
        }
    }

    /// The next trip, as a call.
    fn draft(&self, random: &mut Random) -> MonthDraft {
        let (plan, edition) = plan_in(random, &self.file, &self.book, self.now);
        let parts = plan.parts(self.file.tariff(edition));
        let case = Case {
            tariff: self.bytes.clone(),
            book: self.book.clone(),
            trip: plan.bytes(),
            room: 0,
            story: vec!["a trip under a ceiling"],
        };
        let mut draft = Draft { case, layouts: Layout::all_of(&self.file), edition, plan, parts };
        draft.case.room = draft.statement_bytes() + random.pick(&[0, 0, 1, 5, 120]);
        let due = DUE_BYTES + random.pick(&[0, 0, 1, 4, 60]);
        MonthDraft { ceiling: self.ceiling, kept: self.kept.clone(), due, draft }
    }
}

/// One that a trip, some or many reach; or one at an end of the range.
fn some_ceiling(random: &mut Random) -> u32 {
    let any = random.below(MOST + 1) as u32;
    let few = random.below(3_000) as u32;
    random.pick(&[0, 1, few, few, few, 5_000, 15_000, 100_000, any, MOST as u32 - 1, MOST as u32])
}

/// What a call under this ceiling with this pair met, in words, given tariff, book and trip and so much room for the statement and for
/// what is due.
pub fn month_met(ceiling: u32, kept: &[u8], given: [&[u8]; 3], [room, due]: [usize; 2]) -> Vec<&'static str> {
    let [tariff, book, trip] = given.map(<[u8]>::to_vec);
    let call =
        MonthCase { ceiling, kept: kept.to_vec(), due, case: Case { tariff, book, trip, room, story: Vec::new() } };
    counts::met(&call, &run::by_the_model(&call, &vec![0; room], &vec![0; due]))
}

/// What lies one step away from a trip and from a broken one, both of the sample's tariff.
pub fn sweep(random: &mut Random, run: &mut Run) -> Result<(), Difference> {
    for stops in [vec![0, 1], broken_stops()] {
        let good = by_the_sample(stops.clone(), 14_000_000, [1, 1]);
        let charged = charged_by(run, &good)?;
        amounts(run, &good, charged)?;
        lengths(run, &good)?;
        ends_of_months(random, run, &stops, charged)?;
    }
    Ok(())
}

/// Out and back, where the sample breaks the trip.
fn broken_stops() -> Vec<usize> {
    let file = read_file(SAMPLE).expect("the sample");
    let ways = (1..file.tariff(1).stops.len()).map(|change| vec![0, change, 0]);
    ways.into_iter().find(|stops| parts_of(file.tariff(1), stops, 0).len() == 2).expect("a stop that is far enough")
}

/// A trip of 30 minutes with an adult, a child and a bicycle, on a fresh book and a fresh pair.
fn by_the_sample(stops: Vec<usize>, check_in: u64, offsets: [u64; 2]) -> MonthCase {
    let plan = Plan { check_in, check_out: check_in + 30, offsets, class: 2, level: 0, party: [1, 1, 1], stops };
    let case = Case {
        tariff: SAMPLE.to_vec(),
        book: fresh(),
        trip: plan.bytes(),
        room: LARGEST_STATEMENT,
        story: vec!["a step away from a good call"],
    };
    MonthCase { ceiling: MOST as u32, kept: vec![0; KEPT_BYTES], due: DUE_BYTES, case }
}

/// What a good call charges, which no ceiling cuts.
fn charged_by(run: &mut Run, good: &MonthCase) -> Result<u32, Difference> {
    let left = run.check_month(good)?;
    let kept = Kept::read(&left.kept).expect("a good call");
    assert!(left.answer.is_ok() && kept.amount > 0, "a good call");
    Ok(kept.amount as u32)
}

/// Ceilings around what is charged and around the most, with amounts and months around what they may be.
fn amounts(run: &mut Run, good: &MonthCase, charged: u32) -> Result<(), Difference> {
    let most = MOST as u32;
    let around = |amount: u32| [amount.saturating_sub(1), amount, amount.saturating_add(1)];
    let edges: Vec<u32> = [0, charged, most - charged, most, u32::MAX].map(around).concat();
    let month = good.month().expect("a good call");
    for &ceiling in &edges {
        for &amount in &edges {
            for month in [0, month - 1, month, month + 1, 1_199, 1_200, month + 256, month + 65_536, u32::MAX.into()] {
                let kept = Kept { month, amount: amount.into() }.bytes();
                run.check_month(&MonthCase { ceiling, kept, ..good.clone() })?;
            }
        }
    }
    Ok(())
}

/// Every length around those that are enough, of the pair, of what is due and of the statement.
fn lengths(run: &mut Run, good: &MonthCase) -> Result<(), Difference> {
    for length in (0..=2 * KEPT_BYTES).chain([255, 256, 264]) {
        run.check_month(&MonthCase { kept: vec![0; length], ..good.clone() })?;
    }
    for due in (0..=3 * DUE_BYTES).chain([256, 260]) {
        for room in (0..=160).chain([LARGEST_STATEMENT]) {
            run.check_month(&MonthCase { due, case: Case { room, ..good.case.clone() }, ..good.clone() })?;
        }
    }
    Ok(())
}

/// Check-ins around the last minute of every month, with either offset, so that the local clock may show the next one. The
/// month that ends is kept, and a trip of it is cut.
fn ends_of_months(random: &mut Random, run: &mut Run, stops: &[usize], charged: u32) -> Result<(), Difference> {
    let mut end = 0;
    for month in 0..1_200 {
        end += DAY * days_in_month(2000 + month / 12, 1 + month % 12);
        for _ in 0..4 {
            let check_in = end - random.pick(&[2 * HOUR + 1, 2 * HOUR, HOUR + 1, HOUR, 31, 30, 1, 0]);
            let offsets = random.pick(&[[1, 1], [2, 2], [1, 2], [2, 1]]);
            let mut call = by_the_sample(stops.to_vec(), check_in, offsets);
            call.kept = Kept { month, amount: 700 }.bytes();
            call.ceiling = 700 + random.within(1, charged.into()) as u32;
            run.check_month(&call)?;
        }
    }
    Ok(())
}
