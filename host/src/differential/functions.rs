//! What is offered to C, by whoever offers it: the library, the model, a copy of the model.

use crate::model::{self, Refusal};

/// Checks a tariff alone, and answers its length or the number of its refusal.
pub type Check = fn(&[u8]) -> u64;

/// Settles: tariff, book, trip, statement, and the answer's number.
pub type Settle = fn(&[u8], &mut [u8], &[u8], &mut [u8]) -> u64;

/// Quotes: tariff, book, trip, statement, and the answer's number.
pub type Quote = fn(&[u8], &[u8], &[u8], &mut [u8]) -> u64;

/// Posts: tariff, book, trip, record, and the answer's number.
pub type Post = fn(&[u8], &mut [u8], &[u8], &[u8]) -> u64;

/// Reads: statement, offset, fields, and the answer's number.
pub type Read = fn(&[u8], usize, &mut [u8]) -> u64;

/// Adds or closes: page, association, member, and the answer's number.
pub type ChangePage = fn(&mut [u8], u32, u32) -> u64;

/// Settles a member: tariff, page, association, member, trip, statement, and the answer's number.
pub type SettleMember = fn(&[u8], &mut [u8], u32, u32, &[u8], &mut [u8]) -> u64;

/// Settles under a monthly ceiling: ceiling, what is kept, tariff, book, trip, statement, what is due, and the answer's number.
pub type SettleMonth = fn(u32, &mut [u8], &[u8], &mut [u8], &[u8], &mut [u8], &mut [u8]) -> u64;

/// Corrects: tariff, roll, the record's number, replacement, statements, differences, and the answer's number.
pub type Correct = fn(&[u8], &[u8], u32, &[u8], &mut [u8], &mut [u8]) -> u64;

#[derive(Clone, Copy)]
pub struct Functions {
    pub check: Check,
    pub settle: Settle,
    pub quote: Quote,
    pub post: Post,
    pub read: Read,
    pub add: ChangePage,
    pub close: ChangePage,
    pub settle_member: SettleMember,
    pub settle_month: SettleMonth,
    pub correct: Correct,
}

/// The model, called as the library is.
pub const MODEL: Functions = Functions {
    check: |tariff| number_of(model::check_tariff(tariff)),
    settle: settle_by_the_model,
    quote: |tariff, book, trip, statement| number_of(model::quote(tariff, book, trip, statement)),
    post: |tariff, book, trip, record| number_of(model::post(tariff, book, trip, record)),
    read: |statement, at, fields| number_of(model::read(statement, at, fields)),
    add: |page, association, member| number_of(model::add(page, association, member)),
    close: |page, association, member| number_of(model::close(page, association, member)),
    settle_member: |tariff, page, association, member, trip, statement| {
        number_of(model::settle_member(tariff, page, association, member, trip, statement))
    },
    settle_month: |ceiling, kept, tariff, book, trip, statement, due| {
        number_of(model::settle_month(ceiling, kept, tariff, book, trip, statement, due))
    },
    correct: |tariff, roll, n, replacement, statements, differences| {
        number_of(model::correct(tariff, roll, n, replacement, statements, differences))
    },
};

pub fn settle_by_the_model(tariff: &[u8], book: &mut [u8], trip: &[u8], statement: &mut [u8]) -> u64 {
    number_of(model::settle(tariff, book, trip, statement))
}

/// The number that stands for an answer.
pub fn number_of(answer: Result<usize, Refusal>) -> u64 {
    match answer {
        Ok(written) => written as u64,
        Err(Refusal { number, place }) => (u64::from(number) << 32) + u64::from(place),
    }
}
