//! The program: it settles a roll of trips one after another on one book, and prints a line for each, two where a trip is
//! broken.

use super::book::BOOK_BYTES;
use super::record::record_at;
use super::statement::{ChargeRecord, LARGEST_STATEMENT};
use super::{read_file, settle, Cents};

/// The run stops after so many records.
pub const MOST_RECORDS: usize = 65_535;

/// The text that the program prints for this tariff and this roll.
pub fn settle_roll(tariff: &[u8], roll: &[u8]) -> String {
    if let Err(refusal) = read_file(tariff) {
        return format!("tariff refused {} at {}\n", refusal.number, refusal.place);
    }
    let mut book = vec![0; BOOK_BYTES];
    let mut text = String::from("trip area km min open cents\n");
    let (mut accepted, mut refused, mut total) = (0, 0, 0);
    for (record, number) in records_of(roll).into_iter().zip(1..) {
        // A broken frame is refused with 5.
        let Some(record) = record else {
            text += &refused_line(number, 5);
            refused += 1;
            continue;
        };
        let mut statement = [0; LARGEST_STATEMENT];
        match settle(tariff, &mut book, record, &mut statement) {
            Ok(written) => {
                let records = ChargeRecord::read_all(&statement[..written]).expect("settling writes charge records");
                for charge in &records {
                    text += &accepted_line(number, charge);
                    total += charge.total();
                }
                accepted += 1;
            }
            Err(refusal) => {
                text += &refused_line(number, refusal.number);
                refused += 1;
            }
        }
    }
    text + &tail(accepted, refused, total)
}

/// The records of a roll, at most so many. A broken frame counts as one, which has no bytes, and is the last.
pub fn records_of(roll: &[u8]) -> Vec<Option<&[u8]>> {
    let mut records = Vec::new();
    let mut place = 0;
    while place < roll.len() && records.len() < MOST_RECORDS {
        let record = record_at(roll, place).map(|record| &roll[place..place + record.size()]);
        records.push(record);
        match record {
            Some(record) => place += record.len(),
            None => break,
        }
    }
    records
}

fn accepted_line(number: u64, charge: &ChargeRecord) -> String {
    let ChargeRecord { opening, area, km, minutes, .. } = charge;
    format!("{number} {area} {km} {minutes} {opening} {}\n", charge.total())
}

fn refused_line(number: u64, refusal: u32) -> String {
    format!("{number} refused {refusal}\n")
}

fn tail(accepted: u64, refused: u64, total: Cents) -> String {
    format!("accepted {accepted} refused {refused} cents {total}\n")
}
