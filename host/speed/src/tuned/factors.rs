//! The factor records, four at once.

use super::numbers::{four, Ranges};
use super::tariff::{Factor, FACTOR, FACTOR_HEAD};

/// Length, kind, factor and mark of four records, as three numbers of eight bytes.
const FOUR: [Ranges; 3] = [
    Ranges::of(&[LENGTH, KIND, FACTORS, MARK, LENGTH]),
    Ranges::of(&[KIND, FACTORS, MARK, LENGTH, KIND]),
    Ranges::of(&[FACTORS, MARK, LENGTH, KIND, FACTORS, MARK]),
];
const LENGTH: (u32, u64, u64) = (16, 4, 4);
const KIND: (u32, u64, u64) = (16, 5, 5);
const FACTORS: (u32, u64, u64) = (8, 1, 9);
const MARK: (u32, u64, u64) = (8, 0, 1);

/// Whether all of these are without fault. The first is the state's, whose mark is 0.
#[inline(always)]
pub fn are_faultless(records: &[Factor]) -> bool {
    if records.first().is_none_or(|states| states[5] != 0) {
        return false;
    }
    let Some(last) = records.as_flattened().last_chunk() else {
        return records.iter().all(is_faultless);
    };
    let mut wrong = wrong_in(last);
    for four in records.as_flattened().as_chunks().0 {
        for (wrong, found) in wrong.iter_mut().zip(wrong_in(four)) {
            *wrong |= found;
        }
    }
    wrong[0] & FOUR[0].tops() | wrong[1] & FOUR[1].tops() | wrong[2] & FOUR[2].tops() == 0
}

#[inline(always)]
fn wrong_in(four: &[u8; 4 * FACTOR]) -> [u64; 3] {
    let numbers = four.as_chunks().0;
    [0, 1, 2].map(|place| FOUR[place].strays(u64::from_le_bytes(numbers[place])))
}

#[inline(always)]
fn is_faultless(record: &Factor) -> bool {
    four(record, 0) == FACTOR_HEAD && (1..=9).contains(&record[4]) && record[5] <= 1
}

/// The number of factor records at the start of these bytes, up to the first record that is not one without fault; never
/// more than are due.
pub fn faultless_factors(bytes: &[u8], due: usize) -> usize {
    let records: &[Factor] = bytes.as_chunks().0;
    let is_good = |(place, record): &(usize, &Factor)| is_faultless(record) && (*place > 0 || record[5] == 0);
    records.iter().take(due).enumerate().take_while(is_good).count()
}
