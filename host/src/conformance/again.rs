//! What was settled on a book, once more: under a monthly ceiling, and as a roll of one trip that is corrected.

use super::recorder::{settled, told_from, RECORDED};
use crate::model::correction::DIFFERENCES_BYTES;
use crate::model::month::{DUE_BYTES, KEPT_BYTES, MOST};
use crate::model::statement::LARGEST_STATEMENT;

/// Nothing, what few trips reach, what some do, and the most.
const CEILINGS: [u32; 4] = [0, 300, 15_000, MOST as u32];

pub fn settle() {
    for (ceiling, given) in CEILINGS.into_iter().cycle().zip(settled()) {
        told_from("a settled trip, under a monthly ceiling");
        under(ceiling, &given);
        told_from("a settled trip, as a roll of which it is corrected");
        as_a_roll(&given);
    }
}

/// With room for what is due; and with too little, but room for every statement.
fn under(ceiling: u32, [tariff, book, trip, statement]: &[Vec<u8>; 4]) {
    for room in 0..=DUE_BYTES {
        let bytes = if room < DUE_BYTES { LARGEST_STATEMENT } else { statement.len() };
        let (kept, book, due) = (&mut [0; KEPT_BYTES], &mut book.clone(), &mut vec![0; room]);
        (RECORDED.settle_month)(ceiling, kept, tariff, book, trip, &mut vec![0; bytes], due);
    }
}

/// Cancelled, and replaced by itself.
fn as_a_roll([tariff, _, trip, statement]: &[Vec<u8>; 4]) {
    for replacement in [&[], &trip[..]] {
        let (statements, differences) = (&mut statement.clone(), &mut [0; DIFFERENCES_BYTES]);
        (RECORDED.correct)(tariff, trip, 1, replacement, statements, differences);
    }
}
