//! Records: two-byte length, two-byte kind, body. The length counts kind and body.

use crate::numbers::number;

/// The bytes before the body: length and kind.
pub const HEAD: usize = 4;

pub const KIND_AREA: u64 = 1;
pub const KIND_STOP: u64 = 2;
pub const KIND_CHARGES_ALONE: u64 = 4;
pub const KIND_FACTOR: u64 = 5;
pub const KIND_CHARGE: u64 = 6;
pub const KIND_TRIP: u64 = 7;
pub const KIND_AACHEN_AREA: u64 = 8;
pub const KIND_EDITION: u64 = 9;

pub struct Record<'a> {
    pub kind: u64,
    pub body: &'a [u8],
}

impl Record<'_> {
    /// All bytes of the record.
    pub fn size(&self) -> usize {
        HEAD + self.body.len()
    }
}

/// The record whose first byte is at `place`, or nothing where its frame is broken: fewer than 4 bytes remain, the
/// length is below 2 or above 1,024, or the record runs past the end.
pub fn record_at(bytes: &[u8], place: usize) -> Option<Record<'_>> {
    let rest = &bytes[place..];
    if rest.len() < HEAD {
        return None;
    }
    let length = number(&rest[0..2]) as usize;
    if !(2..=1_024).contains(&length) {
        return None;
    }
    let size = 2 + length;
    if size > rest.len() {
        return None;
    }
    Some(Record { kind: number(&rest[2..4]), body: &rest[HEAD..size] })
}

/// The fields of a body, read one after another.
pub struct Fields<'a> {
    rest: &'a [u8],
}

impl<'a> Fields<'a> {
    pub fn of(body: &'a [u8]) -> Self {
        Fields { rest: body }
    }

    /// The next field, of `width` bytes.
    pub fn next(&mut self, width: usize) -> u64 {
        let (field, rest) = self.rest.split_at(width);
        self.rest = rest;
        number(field)
    }

    /// The next `many` fields, each of `width` bytes.
    pub fn next_many(&mut self, many: usize, width: usize) -> Vec<u64> {
        (0..many).map(|_| self.next(width)).collect()
    }
}
