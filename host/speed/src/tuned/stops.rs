//! Many stops at once.

use super::numbers::{four, FOR_X86_64};
use super::tariff::{Stop, MOST_STOPS, STOP, STOP_HEAD};
use std::hint::black_box;

/// A stop is looked at together with the three bytes before it, which every stop has: as four numbers of four bytes. The
/// first has the length's lower byte above these three, the second its upper byte, the kind and above them the area; then
/// come x and y.
const BEFORE: usize = 3;
type Numbers = [u32; 4];

/// A bit that no number of a good stop has: the top bit of length, area, x and y.
const TOP: u32 = 1 << 31;

/// What is added to the numbers of a stop.
struct Shift(Numbers);

/// Bits that no number of a good stop has after that: length and kind, and the top bits again.
const SHIFTED: Numbers = [0xff << 24, TOP | 0xff_ffff, TOP, TOP];

impl Shift {
    /// Brings length and kind to 0, and the area, x and y to their top bits where they are too large. One that is larger
    /// still may come out small again, but has its top bit set before.
    #[inline(always)]
    fn under(areas: usize) -> Shift {
        let place = (1 << 31) - 1 - 1_000_000;
        Shift(black_box([(256 - 11) << 24, ((128 - areas as u32) << 24) - (2 << 8), place, place]))
    }

    /// Whether these bytes, which are of a stop's length or several, are good stops: so many at a time, then one by one.
    #[inline(always)]
    fn finds_good(&self, bytes: &[u8]) -> bool {
        let many = bytes.len() / (STOP * MANY) * (STOP * MANY);
        let mut found = Bits { given: [0; 4], shifted: [0; 4] };
        if many > 0 {
            self.take::<MANY>(&bytes[..BEFORE + many], &mut found);
        }
        if bytes.len() > BEFORE + many {
            self.take::<1>(&bytes[many..], &mut found);
        }
        let Bits { given, shifted } = found;
        (0..4).fold(0, |bits, number| bits | given[number] & TOP | shifted[number] & SHIFTED[number]) == 0
    }

    /// Takes the bits of these stops together. Each of so many at a time has its own until the end, and which bits will be
    /// asked for is not seen here, so that the compiler makes one step of the four numbers of a stop.
    #[inline(never)]
    fn take<const STOPS: usize>(&self, mut bytes: &[u8], found: &mut Bits) {
        let (mut given, mut shifted) = ([[0; 4]; STOPS], [[0; 4]; STOPS]);
        while bytes.len() >= BEFORE + STOP * STOPS {
            let stops = &bytes[..BEFORE + STOP * STOPS];
            for stop in 0..STOPS {
                let numbers = stops[STOP * stop..][..BEFORE + STOP].as_chunks().0;
                for number in 0..4 {
                    let word = u32::from_le_bytes(numbers[number]);
                    given[stop][number] |= word;
                    shifted[stop][number] |= word.wrapping_add(self.0[number]);
                }
            }
            bytes = &bytes[STOP * STOPS..];
        }
        for stop in 0..STOPS {
            for number in 0..4 {
                found.given[number] |= given[stop][number];
                found.shifted[number] |= shifted[stop][number];
            }
        }
    }
}

/// So many stops at a time: as many as the processor's registers have room for their bits.
const MANY: usize = if FOR_X86_64 { 6 } else { 8 };
/// So many are tested at once.
const TESTED: usize = 50 * MANY;

/// The bits of stops, as they are and shifted.
struct Bits {
    given: Numbers,
    shifted: Numbers,
}

/// Whether nothing but stops without fault stands from `start` on, under so many areas; if not, how many there are at least
/// before the first record that is none.
#[inline(always)]
pub fn all_are_faultless(bytes: &[u8], start: usize, areas: usize) -> Result<(), usize> {
    let shift = Shift::under(areas);
    let many = ((bytes.len() - start) / STOP).min(MOST_STOPS);
    let end = start + STOP * many;
    let mut rest = &bytes[start - BEFORE..end];
    while rest.len() > BEFORE {
        let tested = &rest[..rest.len().min(BEFORE + STOP * TESTED)];
        if !shift.finds_good(tested) {
            return Err(many - rest.len() / STOP);
        }
        rest = &rest[tested.len() - BEFORE..];
    }
    if end == bytes.len() {
        Ok(())
    } else {
        Err(many)
    }
}

/// The number of stops at the start of these bytes, up to the first record that is not a stop without fault under so many
/// areas; never more than there may be.
pub fn faultless_stops(bytes: &[u8], areas: usize, most: usize) -> usize {
    let is_good = |stop: &&Stop| {
        let [x, y] = [5, 9].map(|at| four(stop, at));
        four(stop, 0) == STOP_HEAD && usize::from(stop[4]) < areas && x.max(y) <= 1_000_000
    };
    bytes.as_chunks().0.iter().take(most).take_while(is_good).count()
}
