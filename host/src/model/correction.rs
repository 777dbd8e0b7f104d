//! A corrected roll: one of its records is exchanged, both rolls are settled afresh, and each payer's sums are compared.

use super::book::BOOK_BYTES;
use super::roll::records_of;
use super::statement::{ChargeRecord, LARGEST_STATEMENT};
use super::trip::CARRIED;
use super::{read_file, refused, settle, unless, Cents, Refusal};

/// Of adults, children and bicycles, of each.
const MOST_CARRIED: usize = *CARRIED.end();
/// The account holder, then adults, children and bicycles by their numbers.
pub const PAYERS: usize = 1 + 3 * MOST_CARRIED;
/// A difference has 8 bytes.
pub const DIFFERENCES_BYTES: usize = 8 * PAYERS;

/// Corrects one record of a roll, counted from 1. Accepted: the bytes of all statements of the corrected roll, which stand one behind
/// another at the start of `statements`; and at the start of `differences` stands for each payer the new sum less the old one. Refused,
/// by 23, 1 to 3 and 12: both stay.
pub fn correct(
    tariff: &[u8],
    roll: &[u8],
    n: u32,
    replacement: &[u8],
    statements: &mut [u8],
    differences: &mut [u8],
) -> Result<usize, Refusal> {
    // 23: no nth record, or its frame is broken
    let old = records_of(roll);
    let exchanged = (n as usize).checked_sub(1).filter(|&place| place < old.len()).ok_or(refused(23))?;
    let old: Vec<&[u8]> = old.into_iter().map(|record| record.unwrap_or(&[])).collect();
    unless(!old[exchanged].is_empty(), 23)?;
    // 1, 2, 3
    read_file(tariff)?;
    let mut new = old.clone();
    new[exchanged] = replacement;
    let (before, after) = (Outcome::of(tariff, &old), Outcome::of(tariff, &new));
    // 12: not all statements fit, or the differences do not
    let written = after.statements.len();
    unless(written <= statements.len() && DIFFERENCES_BYTES <= differences.len(), 12)?;
    statements[..written].copy_from_slice(&after.statements);
    for (bytes, (old, new)) in differences.chunks_exact_mut(8).zip(before.sums.iter().zip(after.sums)) {
        bytes.copy_from_slice(&(new as i64 - *old as i64).to_le_bytes());
    }
    Ok(written)
}

/// What a roll comes to from a fresh book.
struct Outcome {
    /// All charge records, one behind another.
    statements: Vec<u8>,
    /// What each payer is charged in all.
    sums: [Cents; PAYERS],
}

impl Outcome {
    /// Where a trip is refused, the others go on.
    fn of(tariff: &[u8], trips: &[&[u8]]) -> Outcome {
        let mut book = vec![0; BOOK_BYTES];
        let mut outcome = Outcome { statements: Vec::new(), sums: [0; PAYERS] };
        for trip in trips {
            let mut statement = [0; LARGEST_STATEMENT];
            let written = settle(tariff, &mut book, trip, &mut statement).unwrap_or(0);
            outcome.statements.extend(&statement[..written]);
            for record in ChargeRecord::read_all(&statement[..written]).expect("settling writes charge records") {
                outcome.add(&record);
            }
        }
        outcome
    }

    fn add(&mut self, record: &ChargeRecord) {
        for (charge, payer) in record.charges.iter().zip(payers_of(record)) {
            self.sums[payer] += charge;
        }
    }
}

/// Who pays each charge of a record: the account holder, and from each of the three tens as many as were carried.
fn payers_of(record: &ChargeRecord) -> Vec<usize> {
    let ChargeRecord { adults, children, bicycles, .. } = *record;
    let carried = [adults, children, bicycles].into_iter().zip([1, 1 + MOST_CARRIED, 1 + 2 * MOST_CARRIED]);
    let tens = carried.flat_map(|(many, first)| first..first + many);
    [0].into_iter().chain(tens).collect()
}
