//! A call under a monthly ceiling, as it is given to both sides.

use crate::differential::cases::Case;
use crate::differential::report::{case_in_words, hexadecimal};
use crate::model::month::month_of;
use crate::model::trip::Trip;

#[derive(Clone, Debug)]
pub struct MonthCase {
    pub ceiling: u32,
    pub kept: Vec<u8>,
    /// Bytes of the slice for what is due.
    pub due: usize,
    /// What settling is given.
    pub case: Case,
}

impl MonthCase {
    /// The month of the check-in, where it is a time.
    pub fn month(&self) -> Option<u64> {
        Trip::read(&self.case.trip)?.check_in.minute_number().map(month_of)
    }

    pub fn in_words(&self) -> String {
        let MonthCase { ceiling, kept, due, case } = self;
        format!(
            "{}kept are {} bytes:{}\nsettled under a ceiling of {ceiling}, with a statement of {} bytes and {due} bytes for what is due\n",
            case_in_words(case),
            kept.len(),
            hexadecimal(kept),
            case.room,
        )
    }
}
