//! The stack that a call of the library takes, by painting the stack that it runs on (c/painted.c). x86-64 and aarch64.

use crate::library::{
    milecopper_add, milecopper_check_tariff, milecopper_close, milecopper_correct, milecopper_post, milecopper_quote,
    milecopper_read, milecopper_settle, milecopper_settle_member, milecopper_settle_month,
};

/// What the library exports, and how many bytes of stack a call may take. Who raises a limit says why in docs/DECISIONS.md.
/// c/painter.c has the functions in the same order.
pub const FUNCTIONS: [Function; 10] = [
    Function { name: "milecopper_settle", limit: 832, start: milecopper_settle as *const (), before: ALL, numbers: 0 },
    Function { name: "milecopper_quote", limit: 1_536, start: milecopper_quote as *const (), before: ALL, numbers: 0 },
    Function { name: "milecopper_post", limit: 2_048, start: milecopper_post as *const (), before: ALL, numbers: 0 },
    Function {
        name: "milecopper_check_tariff",
        limit: 512,
        start: milecopper_check_tariff as *const (),
        before: ALL,
        numbers: 0,
    },
    Function { name: "milecopper_read", limit: 512, start: milecopper_read as *const (), before: 1, numbers: 1 },
    Function { name: "milecopper_add", limit: 256, start: milecopper_add as *const (), before: 1, numbers: 2 },
    Function { name: "milecopper_close", limit: 256, start: milecopper_close as *const (), before: 1, numbers: 2 },
    Function {
        name: "milecopper_settle_member",
        limit: 1_280,
        start: milecopper_settle_member as *const (),
        before: 2,
        numbers: 2,
    },
    Function {
        name: "milecopper_settle_month",
        limit: 1_536,
        start: milecopper_settle_month as *const (),
        before: 0,
        numbers: 1,
    },
    Function {
        name: "milecopper_correct",
        limit: 8_192,
        start: milecopper_correct as *const (),
        before: 2,
        numbers: 1,
    },
];

/// Their places among them.
pub const SETTLE: usize = 0;
pub const QUOTE: usize = 1;
pub const POST: usize = 2;
pub const CHECK: usize = 3;
pub const READ: usize = 4;
pub const ADD: usize = 5;
pub const CLOSE: usize = 6;
pub const SETTLE_MEMBER: usize = 7;
pub const SETTLE_MONTH: usize = 8;
pub const CORRECT: usize = 9;

/// The most slices that a function takes, each a pointer and a length.
const SLICES: usize = 6;
/// A function has no numbers between its slices.
const ALL: usize = SLICES;
/// The words that a call is given: those of the slices, and two for numbers.
const GIVEN: usize = 2 * SLICES + 2;

pub struct Function {
    pub name: &'static str,
    pub limit: usize,
    start: *const (),
    /// How many slices stand before its numbers, and how many these are.
    before: usize,
    numbers: usize,
}

/// Whether a call can be made on a stack of one's choice here.
pub const IS_PAINTED: bool = cfg!(any(target_arch = "x86_64", target_arch = "aarch64"));

/// Far more than a call needs, in words.
const WORDS: usize = 8 * 1_024;

#[repr(align(16))]
struct Stack([u64; WORDS]);

/// What is lent to a call: tariff, book or page and trip, and a statement, or a posting's record; the statement and the fields of
/// a reading; a page; what is kept under a ceiling, tariff, book, trip, statement and what is due; or tariff, roll, replacement,
/// statements and differences; and a reading's offset, an association and a member's number, the ceiling, or a record's number. A function does not look at what it does not take.
#[derive(Clone, Copy)]
pub struct Call<'a> {
    slices: [&'a [u8]; SLICES],
    numbers: [usize; 2],
}

impl<'a> Call<'a> {
    /// With these slices, and none behind them.
    pub fn of(lent: &[&'a [u8]], numbers: [usize; 2]) -> Call<'a> {
        let mut slices: [&[u8]; SLICES] = [&[]; SLICES];
        slices[..lent.len()].copy_from_slice(lent);
        Call { slices, numbers }
    }
}

#[cfg(any(target_arch = "x86_64", target_arch = "aarch64"))]
extern "C" {
    fn painted_depth(function: *const (), given: *const u64, stack: *mut u64, size: u64, answer: *mut u64) -> u64;
}

#[cfg(not(any(target_arch = "x86_64", target_arch = "aarch64")))]
unsafe fn painted_depth(_: *const (), _: *const u64, _: *mut u64, _: u64, _: *mut u64) -> u64 {
    unreachable!("no stack of one's choice on this processor")
}

/// The bytes of stack that one of the functions takes below its caller's, on copies of what is lent.
pub fn depth_of(function: usize, call: &Call) -> usize {
    let mut slices = call.slices.map(<[u8]>::to_vec);
    let mut stack = Box::new(Stack([0; WORDS]));
    let mut given: Vec<u64> =
        slices.iter_mut().flat_map(|slice| [slice.as_mut_ptr() as u64, slice.len() as u64]).collect();
    let Function { before, numbers, .. } = FUNCTIONS[function];
    given.splice(2 * before..2 * before, call.numbers[..numbers].iter().map(|&number| number as u64));
    given.resize(GIVEN, 0);
    // SAFETY: each function takes at most six slices, a pointer and a length each, and at most two numbers before or between
    // them: fourteen words. The pointers come with their slices' own lengths, and the slices overlap nothing. The stack is memory that nobody else
    // uses, of so many words, an even number, at a multiple of 16, and far more than a call needs.
    unsafe {
        painted_depth(FUNCTIONS[function].start, given.as_ptr(), stack.0.as_mut_ptr(), WORDS as u64, &mut 0) as usize
    }
}

/// A call as c/painter.c takes it.
pub fn bytes_of(function: usize, call: &Call) -> Vec<u8> {
    let [one, other] = call.numbers;
    let numbers = [function, one, other].into_iter().chain(call.slices.map(<[u8]>::len));
    let head = numbers.flat_map(|number| (number as u64).to_le_bytes());
    head.chain(call.slices.concat()).collect()
}

#[cfg(test)]
mod tests {
    use super::*;

    #[test]
    fn the_header_asks_for_the_limit() {
        let header = include_str!("../../include/milecopper.h");
        for function in FUNCTIONS {
            let (name, limit) = (function.name, function.limit);
            let bytes = match limit / 1_000 {
                0 => limit.to_string(),
                thousands => format!("{thousands},{:03}", limit % 1_000),
            };
            let duty = format!("Where {name} is called, at least {bytes} bytes of stack are free.");
            assert!(header.contains(&duty), "{duty}");
        }
    }
}
