//! The program that prints statements: a table of comma-separated values with a line for each charge.

use super::clock::Moment;
use super::reading::{read_record, Charge, Fields};
use super::record::record_at;

const HEADER: &str = "record,opening,area,km,minutes,payer,cents,off,cap_area,cap_class,refused\n";

/// The text that the program prints for a statement.
pub fn print_statement(statement: &[u8]) -> String {
    let mut text = String::from(HEADER);
    let (mut number, mut place) = (0, 0);
    while place < statement.len() {
        number += 1;
        match read_record(statement, place) {
            Ok((fields, _)) => text += &lines(number, &fields),
            // number, nine empty fields, refusal
            Err(refusal) => text += &format!("{number}{}{}\n", ",".repeat(10), refusal.number),
        }
        // A broken frame ends the run; any other record is passed over, refused or not.
        match record_at(statement, place) {
            Some(record) => place += record.size(),
            None => break,
        }
    }
    text
}

fn lines(number: u64, fields: &Fields) -> String {
    let Fields { opening, area, km, minutes, charges, .. } = fields;
    let opening = Moment::of(*opening);
    let each = charges.iter().enumerate().map(|(place, charge)| {
        let (payer, cut) = (payer(fields, place), cut(fields, place, charge));
        format!("{number},{opening},{area},{km},{minutes},{payer},{},{cut},\n", charge.cents)
    });
    each.collect()
}

/// Whose the charge at this place is, each sort counted from 1.
fn payer(fields: &Fields, place: usize) -> String {
    let Some(party) = fields.party else { return format!("charge {}", place + 1) };
    match place {
        0 => "holder".to_string(),
        _ if place <= party.adults => format!("adult {place}"),
        _ if place < party.persons() => format!("child {}", place - party.adults),
        _ => format!("bicycle {}", place + 1 - party.persons()),
    }
}

/// What was taken off, and the cap's area and class where that is not 0; nothing of a bicycle and in kind 4.
fn cut(fields: &Fields, place: usize, charge: &Charge) -> String {
    let is_person = fields.party.is_some_and(|party| place < party.persons());
    match (is_person, charge.reduction, charge.cap) {
        (false, ..) => ",,".to_string(),
        (true, 0, _) => "0,,".to_string(),
        (true, off, (area, class)) => format!("{off},{area},{class}"),
    }
}

#[cfg(test)]
mod tests {
    use super::*;

    #[test]
    fn nothing_gives_the_header() {
        assert_eq!(print_statement(&[]), HEADER);
        assert_eq!(print_statement(&[7]), format!("{HEADER}1,,,,,,,,,,14\n"));
    }
}
