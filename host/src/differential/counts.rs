//! How many settled cases ended in each refusal and in each kind of acceptance, and what quotes, postings, readings, calls on
//! pages, calls under a ceiling and corrections came to.

use super::accounts::Accounts;
use super::cases::Case;
use super::corrections::Corrections;
use super::kinds::{is_rare, kinds_of, KINDS};
use super::months::Months;
use super::offers::Offers;
use super::particulars::particulars;
use super::reads::Reads;
use crate::answer::Refusal;
use crate::model::statement::ChargeRecord;
use std::fmt;

#[derive(Default)]
pub struct Counts {
    accepted: u64,
    /// One case may be of several kinds.
    kinds: Vec<u64>,
    /// By number, from 1.
    refusals: [u64; NUMBERS],
    /// Ways in which single refusals come about.
    particulars: Vec<u64>,
    pub quotes: Offers,
    pub readings: Reads,
    pub accounts: Accounts,
    pub months: Months,
    pub corrections: Corrections,
    /// Tariffs checked alone, those with a fault and those without.
    tariffs: [u64; 2],
}

/// No refusal has a number as high as this.
pub const NUMBERS: usize = Refusal::WrongCeiling as usize + 1;

impl Counts {
    pub fn count_accepted(&mut self, case: &Case, records: &[ChargeRecord]) {
        self.accepted += 1;
        self.kinds.resize(KINDS.concat().len(), 0);
        for (count, is_of_it) in self.kinds.iter_mut().zip(kinds_of(case, records)) {
            *count += u64::from(is_of_it);
        }
    }

    pub fn count_refused(&mut self, case: &Case, number: u32) {
        self.refusals[number as usize] += 1;
        self.particulars.resize(particulars().count(), 0);
        for (count, (refusal, _, is_so)) in self.particulars.iter_mut().zip(particulars()) {
            *count += u64::from(refusal == number && is_so(case));
        }
    }

    pub fn count_tariff(&mut self, is_faultless: bool) {
        self.tariffs[usize::from(is_faultless)] += 1;
    }

    pub fn refused(&self) -> u64 {
        self.refusals.iter().sum()
    }

    /// Everything that was called.
    fn cases(&self) -> u64 {
        let settled = self.accepted + self.refused();
        let over_it = self.accounts.calls() + self.months.calls() + self.corrections.calls();
        settled + self.quotes.calls() + self.readings.calls() + over_it
    }

    /// Each kind with its count.
    fn counted_kinds(&self) -> impl Iterator<Item = (&'static str, u64)> + '_ {
        KINDS.concat().into_iter().zip(self.kinds.iter().copied())
    }

    /// The refusals and kinds that fewer than 1 % of their half ended in, and what was not met at all.
    pub fn too_few(&self) -> Vec<String> {
        let refusals = Refusal::of_settling().filter(|&refusal| self.refusals[refusal as usize] * 100 < self.refused());
        let is_few = |kind, count| if is_rare(kind) { count == 0 } else { count * 100 < self.accepted };
        let kinds = self.counted_kinds().filter(|&(kind, count)| is_few(kind, count));
        let refusals = refusals.map(|refusal| format!("refusal {}", refusal as u32));
        let mut all: Vec<String> = refusals.chain(kinds.map(|(kind, _)| kind.to_string())).collect();
        for ((number, way, _), &count) in particulars().zip(&self.particulars) {
            if count == 0 {
                all.push(format!("refusal {number}, {way}"));
            }
        }
        all.extend(self.quotes.too_few());
        all.extend(self.readings.too_few());
        all.extend(self.accounts.too_few());
        all.extend(self.months.too_few());
        all.extend(self.corrections.too_few());
        if self.tariffs.contains(&0) {
            all.push("tariffs checked alone".to_string());
        }
        if self.accepted == 0 {
            all.push("accepted cases".to_string());
        }
        if self.refused() == 0 {
            all.push("refused cases".to_string());
        }
        all
    }
}

impl fmt::Display for Counts {
    fn fmt(&self, out: &mut fmt::Formatter) -> fmt::Result {
        let line = |out: &mut fmt::Formatter, count: u64, half: u64, what: &str| {
            writeln!(out, "  {count:>8} {:>5.1} %  {what}", 100.0 * count as f64 / half.max(1) as f64)
        };
        writeln!(out, "refused {}", self.refused())?;
        for refusal in Refusal::of_settling() {
            let what = format!("{:>2} {}", refusal as u32, refusal.text());
            line(out, self.refusals[refusal as usize], self.refused(), &what)?;
        }
        for ((number, way, _), &count) in particulars().zip(&self.particulars) {
            line(out, count, self.refused(), &format!("{number:>2}, {way}"))?;
        }
        writeln!(out, "accepted {}; one case may be of several kinds", self.accepted)?;
        for (kind, count) in self.counted_kinds() {
            line(out, count, self.accepted, kind)?;
        }
        let [faulty, faultless] = self.tariffs;
        writeln!(out, "tariffs checked alone: {faultless} without and {faulty} with a fault")?;
        write!(out, "{}{}{}{}", self.quotes, self.readings, self.accounts, self.months)?;
        write!(out, "{}cases {}", self.corrections, self.cases())
    }
}
