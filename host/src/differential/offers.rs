//! What quotes and postings came to, and what the postings were offered.

use super::counts::NUMBERS;
use crate::answer::Refusal as Named;
use crate::model::Refusal;
use std::fmt;

/// The record that a posting is offered.
#[derive(Clone, Copy, Debug, PartialEq, Eq)]
pub enum Offer {
    /// What was quoted just now.
    Present,
    /// The same, of a case whose own statement is too short for it.
    WithoutRoom,
    /// What was quoted before another trip was posted.
    Earlier,
    Longer,
    Shorter,
    Empty,
    ByteOff,
    OneOfTwo,
    Swapped,
    /// Some bytes, with a case that is refused whatever they are.
    Any,
}

/// What a posting may come to.
const RESULTS: [&str; 3] = ["accepted", "refused by 13", "refused by another"];
const ACCEPTED: usize = 0;
const OTHER_RECORD: usize = 1;
const BEFORE_13: usize = 2;

/// Each in words, with the results that have to be met.
const OFFERS: [(Offer, &str, &[usize]); 10] = [
    (Offer::Present, "the present quote", &[ACCEPTED]),
    (Offer::WithoutRoom, "the present quote, and settling would be refused by 12", &[ACCEPTED]),
    (Offer::Earlier, "a quote from before another trip was posted", &[ACCEPTED, OTHER_RECORD]),
    (Offer::Longer, "a longer one", &[OTHER_RECORD]),
    (Offer::Shorter, "a shorter one", &[OTHER_RECORD]),
    (Offer::Empty, "an empty one", &[OTHER_RECORD]),
    (Offer::ByteOff, "one with a byte off", &[OTHER_RECORD]),
    (Offer::OneOfTwo, "one of two charge records", &[OTHER_RECORD]),
    (Offer::Swapped, "two charge records swapped", &[OTHER_RECORD]),
    (Offer::Any, "any bytes", &[BEFORE_13]),
];

#[derive(Default)]
pub struct Offers {
    /// Quotes that were accepted at 0, and those refused by number.
    quotes: [u64; NUMBERS],
    /// Likewise postings.
    postings: [u64; NUMBERS],
    /// For each offer how often it came to each result.
    results: [[u64; RESULTS.len()]; OFFERS.len()],
}

impl Offers {
    pub fn count_quote(&mut self, answer: Result<usize, Refusal>) {
        self.quotes[number_in(answer)] += 1;
    }

    pub fn count_posting(&mut self, offer: Offer, answer: Result<usize, Refusal>) {
        let number = number_in(answer);
        let result = match number {
            0 => ACCEPTED,
            13 => OTHER_RECORD,
            _ => BEFORE_13,
        };
        self.postings[number] += 1;
        self.results[offer as usize][result] += 1;
    }

    pub fn calls(&self) -> u64 {
        self.quotes.iter().chain(&self.postings).sum()
    }

    /// Of settling's refusals, of postings without 12, those that fewer than 1 % ended in, and of the results of postings that
    /// have to be met those that fewer than 1 % of all came to.
    pub fn too_few(&self) -> Vec<String> {
        let mut all = few_refusals("quotes", &self.quotes, Named::of_settling());
        let of_postings = Named::of_settling().filter(|&refusal| refusal != Named::NoRoom);
        all.extend(few_refusals("postings", &self.postings, of_postings));
        let postings: u64 = self.postings.iter().sum();
        for (offer, words, due) in OFFERS {
            let few = due.iter().filter(|&&result| self.results[offer as usize][result] * 100 < postings.max(1));
            all.extend(few.map(|&result| format!("postings of {words}, {}", RESULTS[result])));
        }
        all
    }
}

/// 0 where it was accepted.
fn number_in(answer: Result<usize, Refusal>) -> usize {
    answer.err().map_or(0, |refusal| refusal.number as usize)
}

fn few_refusals(what: &str, counts: &[u64], due: impl Iterator<Item = Named>) -> Vec<String> {
    let numbers: Vec<usize> = due.map(|refusal| refusal as usize).collect();
    let refused: u64 = numbers.iter().map(|&number| counts[number]).sum();
    let few = numbers.into_iter().filter(|&number| counts[number] * 100 < refused.max(1));
    few.map(|number| format!("{what} refused by {number}")).collect()
}

impl fmt::Display for Offers {
    fn fmt(&self, out: &mut fmt::Formatter) -> fmt::Result {
        for (what, counts) in [("quotes", &self.quotes), ("postings", &self.postings)] {
            let total: u64 = counts.iter().sum();
            let refused = counts.iter().enumerate().skip(1).filter(|(_, &count)| count > 0);
            let refused: Vec<String> = refused.map(|(number, count)| format!("{number}: {count}")).collect();
            writeln!(out, "{what} {total}; accepted {}, refused by {}", counts[0], refused.join(", "))?;
        }
        writeln!(out, "  {}; of postings that were offered", RESULTS.join(", "))?;
        for (offer, words, _) in OFFERS {
            let [accepted, other, before] = self.results[offer as usize];
            writeln!(out, "  {accepted:>8} {other:>8} {before:>8}  {words}")?;
        }
        Ok(())
    }
}
