//! The tariff file: one edition or two, each opened by a date, and which of them is in force.

use super::calendar::first_minute;
use super::numbers::four;
use super::tariff::{has_whole_frame, Places, Tariff, MOST_AREAS};
use super::{Minutes, Refusal};

/// The bytes of the record that opens an edition, and its length and kind as one number.
const OPENING: usize = 8;
const OPENING_HEAD: u32 = 9 << 16 | 6;
const KIND: [u8; 2] = [9, 0];

/// Where the areas of both editions begin.
pub type Room = [Places; 2];
pub const ROOM: Room = [[0; MOST_AREAS]; 2];

pub struct Edition<'a> {
    since: Minutes,
    tariff: Tariff<'a>,
}

/// A file without fault.
pub struct Editions<'a> {
    first: Edition<'a>,
    second: Option<Edition<'a>>,
}

impl<'a> Editions<'a> {
    /// The editions, or the fault of the file's first faulty record and that record's place. The areas' places are put down.
    #[inline(always)]
    pub fn read(bytes: &'a [u8], room: &'a mut Room) -> Result<Editions<'a>, Refusal> {
        let [places, others] = room;
        let since = opening_at(bytes, 0, 0)?;
        let (tariff, end) = Tariff::read(bytes, OPENING, places)?;
        let first = Edition { since, tariff };
        let second = if end == bytes.len() { None } else { Some(read_second(bytes, end, since, others)?) };
        Ok(Editions { first, second })
    }

    /// How many areas each edition has; 0 where there is no second one.
    #[inline(always)]
    pub fn areas(&self) -> [usize; 2] {
        [self.first.tariff.areas, self.second.as_ref().map_or(0, |edition| edition.tariff.areas)]
    }

    /// The number of the last edition whose first minute is not after this one; 0 where there is none.
    #[inline(always)]
    pub fn in_force(&self, minute: Minutes) -> u32 {
        match &self.second {
            Some(second) if second.since <= minute => 2,
            _ => u32::from(self.first.since <= minute),
        }
    }

    /// The tariff of the edition of this number.
    #[inline(always)]
    pub fn tariff(&self, edition: u32) -> &Tariff<'a> {
        match &self.second {
            Some(second) if edition == 2 => &second.tariff,
            _ => &self.first.tariff,
        }
    }
}

/// Few files have one: it stands out of the way.
#[inline(never)]
fn read_second<'a>(bytes: &'a [u8], at: usize, first: Minutes, places: &'a mut Places) -> Result<Edition<'a>, Refusal> {
    let since = opening_at(bytes, at, first + 1)?;
    match Tariff::read(bytes, at + OPENING, places)? {
        (tariff, end) if end == bytes.len() => Ok(Edition { since, tariff }),
        // A third one, with a whole frame or not.
        (_, end) => Err(Refusal::at(if is_whole(&bytes[end..]) { 2 } else { 1 }, end)),
    }
}

/// Whether a record of kind 9 begins here, whatever its length is.
#[inline(always)]
pub fn opens(bytes: &[u8], at: usize) -> bool {
    bytes.get(at + 2..at + 4) == Some(&KIND)
}

/// The first minute of the edition that is opened here, which is not before the least.
#[inline(always)]
fn opening_at(bytes: &[u8], at: usize, least: Minutes) -> Result<Minutes, Refusal> {
    let rest = &bytes[at..];
    match rest.first_chunk::<OPENING>() {
        Some(opening) if four(opening, 0) == OPENING_HEAD => {
            first_minute(four(opening, 4)).filter(|&since| since >= least).ok_or_else(|| Refusal::at(3, at))
        }
        _ => Err(Refusal::at(if is_whole(rest) || rest.is_empty() { 2 } else { 1 }, at)),
    }
}

/// Whether these bytes begin with a whole frame.
#[cold]
fn is_whole(rest: &[u8]) -> bool {
    rest.first_chunk().is_some_and(|head| has_whole_frame(head, rest.len()))
}
