//! Quotes and postings beside settling: at once, late, and with records that were not quoted.

use super::cases::{Call, Case};
use super::offers::Offer;
use super::random::Random;
use super::run::{Difference, Outcome, Run};
use crate::model::statement::LARGEST_STATEMENT;
use crate::offered::{is_of_two, Offered};

/// For some cases that were settled, a quote and a posting. The book is the one before the last accepted trip, if there is
/// one.
pub fn beside(
    random: &mut Random,
    run: &mut Run,
    case: &Case,
    settled: &Outcome,
    before: Option<&[u8]>,
) -> Result<(), Difference> {
    match (random.below(9), before) {
        (0, _) => at_once(run, case, settled),
        (1, Some(before)) => late(run, case, before),
        (2, _) => with_another_record(random, run, case, settled),
        _ => Ok(()),
    }
}

/// A quote and at once its posting give what settling gave: answer and charge records, then the book.
fn at_once(run: &mut Run, case: &Case, settled: &Outcome) -> Result<(), Difference> {
    let quoted = run.check_quote(case)?;
    if quoted.answer != settled.answer || quoted.records() != settled.records() {
        return Err(run.difference(case, Call::Quote, &["settling gave another answer or other records".to_string()]));
    }
    let Some(record) = quoted.records() else { return refused_anyhow(run, case, settled) };
    let posted = run.check_post(case, record, Offer::Present)?;
    if posted.answer != Ok(case.book.len()) || posted.book != settled.book {
        let told = "settling left another book, or the answer is not the book's length".to_string();
        return Err(run.difference(case, Call::Post(record), &[told]));
    }
    Ok(())
}

/// What settling refuses by another number than 12, a posting refuses alike, whatever the record; 12 is no matter of a posting.
fn refused_anyhow(run: &mut Run, case: &Case, settled: &Outcome) -> Result<(), Difference> {
    if settled.answer.is_err_and(|refusal| refusal.number == 12) {
        let roomy = Case { room: LARGEST_STATEMENT, ..case.clone() };
        let quoted = run.check_quote(&roomy)?;
        let record = quoted.records().expect("refused by 12 and nothing else");
        return run.check_post(case, record, Offer::WithoutRoom).map(drop);
    }
    let posted = run.check_post(case, &case.trip, Offer::Any)?;
    if posted.answer != settled.answer {
        return Err(run.difference(case, Call::Post(&case.trip), &["settling gave another answer".to_string()]));
    }
    Ok(())
}

/// The quote is of the book as it was before another trip.
fn late(run: &mut Run, case: &Case, before: &[u8]) -> Result<(), Difference> {
    let quoted = run.check_quote(&Case { book: before.to_vec(), ..case.clone() })?;
    match quoted.records() {
        Some(record) => run.check_post(case, record, Offer::Earlier).map(drop),
        None => Ok(()),
    }
}

/// Settling's records, which are the quote's, with something wrong with them.
fn with_another_record(random: &mut Random, run: &mut Run, case: &Case, settled: &Outcome) -> Result<(), Difference> {
    let Some(quote) = settled.records() else { return Ok(()) };
    let (offered, offer) = match random.below(if is_of_two(quote) { 8 } else { 4 }) {
        0 => (Offered::Longer(random.pick(&[1, 1, 2, 4, 10, 26])), Offer::Longer),
        1 => (Offered::Cut(quote.len() - random.pick(&[1, 1, 2, 4, 10, 14])), Offer::Shorter),
        2 => (Offered::Cut(0), Offer::Empty),
        3 => (Offered::Off(random.index(quote.len())), Offer::ByteOff),
        4 => (Offered::First, Offer::OneOfTwo),
        5 => (Offered::Second, Offer::OneOfTwo),
        _ => (Offered::Swapped, Offer::Swapped),
    };
    run.check_post(case, &offered.bytes(quote), offer).map(drop)
}

/// Of a good case every record that is one step away from its quote: each bit flipped, each cut, some bytes more, one of two
/// records, the two swapped.
pub fn records_beside(run: &mut Run, good: &Case) -> Result<(), Difference> {
    let quoted = run.check_quote(good)?;
    let quote = quoted.records().expect("a good case");
    run.check_post(good, quote, Offer::Present)?;
    for place in 0..quote.len() {
        for bit in 0..8 {
            let mut record = quote.to_vec();
            record[place] ^= 1 << bit;
            run.check_post(good, &record, Offer::ByteOff)?;
        }
        let offer = if place == 0 { Offer::Empty } else { Offer::Shorter };
        run.check_post(good, &quote[..place], offer)?;
    }
    for more in 1..=quote.len() {
        run.check_post(good, &Offered::Longer(more).bytes(quote), Offer::Longer)?;
        run.check_post(good, &[quote, &quote[..more]].concat(), Offer::Longer)?;
    }
    if is_of_two(quote) {
        run.check_post(good, &Offered::First.bytes(quote), Offer::OneOfTwo)?;
        run.check_post(good, &Offered::Second.bytes(quote), Offer::OneOfTwo)?;
        run.check_post(good, &Offered::Swapped.bytes(quote), Offer::Swapped)?;
    }
    Ok(())
}
