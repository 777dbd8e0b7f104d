//! Before anything is measured: all sides make the same of every case.

use super::cases::Case;
use super::sides::{Side, PLAIN};
use milecopper_host::answer::Answer;

/// What a side made of a case.
#[derive(PartialEq, Eq)]
struct Outcome {
    number: u64,
    book: Vec<u8>,
    statement: Vec<u8>,
}

/// Runs every case once on every side. The first difference is an error, and so is a case that is not answered as it is
/// meant to be.
pub fn all_agree(cases: &[Case], sides: &[Side]) -> Result<(), String> {
    cases.iter().try_for_each(|case| agree(case, sides))
}

fn agree(case: &Case, sides: &[Side]) -> Result<(), String> {
    let due = outcome(&sides[PLAIN], case);
    if due.number >> 32 != case.refusal {
        return Err(told(case, &format!("the case is meant for refusal {}, and is {}", case.refusal, words(&due))));
    }
    for side in sides {
        let found = outcome(side, case);
        let what = if found.number != due.number {
            format!("the answer is {} by the {} side, {} by the plain one", words(&found), side.name, words(&due))
        } else if found.book != due.book {
            format!("the book of the {} side differs from the plain one's", side.name)
        } else if found.statement != due.statement {
            format!("the statement of the {} side differs from the plain one's", side.name)
        } else {
            continue;
        };
        return Err(told(case, &what));
    }
    Ok(())
}

fn outcome(side: &Side, case: &Case) -> Outcome {
    let (mut book, mut statement) = (case.book.clone(), vec![0x5b; case.room]);
    let number = side.function(case)(&case.tariff, &mut book, &case.trip, &mut statement);
    Outcome { number, book, statement }
}

fn words(outcome: &Outcome) -> String {
    Answer::of(outcome.number)
        .map_or(format!("{}, which stands for nothing", outcome.number), |answer| answer.to_string())
}

fn told(case: &Case, what: &str) -> String {
    format!("{:?} {:?} {}: {what}", case.group, case.name, case.size)
}
