//! The tariff of an edition as it lies in its bytes: 1 to 32 areas of both kinds, then the factor records, then 0 to 1,000 stops.
//! Refusals 1 to 3.

use super::areas::{first_faulty_area, read_areas, Areas};
use super::editions::opens;
use super::factors::{are_faultless, faultless_factors};
use super::numbers::{four, two};
use super::stops::{all_are_faultless, faultless_stops};
use super::{Cents, Refusal};

pub const MOST_AREAS: usize = 32;
pub const MOST_STOPS: usize = 1_000;
/// The bytes of an area's record of kind 1, and of kind 8; of a factor record; of a stop's.
pub const AREA: usize = 29;
pub const AACHEN_AREA: usize = 42;
pub const FACTOR: usize = 6;
pub const STOP: usize = 13;

/// Length and kind of these, as one number.
pub const AREA_HEAD: u32 = 1 << 16 | 27;
pub const AACHEN_HEAD: u32 = 8 << 16 | 40;
pub const FACTOR_HEAD: u32 = 5 << 16 | 4;
pub const STOP_HEAD: u32 = 2 << 16 | 11;

/// The level of a city.
pub const CITY: u8 = 2;

/// The day cap that means none.
pub const NO_DAY_CAP: Cents = 65_535;

/// What areas of both kinds have in the same places.
pub type Area = [u8; AREA];
pub type AachenArea = [u8; AACHEN_AREA];
pub type Factor = [u8; FACTOR];
pub type Stop = [u8; STOP];

/// Where each area begins.
pub type Places = [u16; MOST_AREAS];

/// A tariff without fault.
pub struct Tariff<'a> {
    bytes: &'a [u8],
    places: &'a Places,
    pub areas: usize,
    /// Of the state, then of the regions.
    factors: &'a [Factor],
    pub stops: &'a [Stop],
}

impl<'a> Tariff<'a> {
    /// The tariff that begins there in the file, and where it ends: where the file does, or a record of kind 9 begins; or the
    /// fault of its first faulty record and that record's place. The areas' places are put down.
    #[inline(never)]
    pub fn read(file: &'a [u8], from: usize, places: &'a mut Places) -> Result<(Tariff<'a>, usize), Refusal> {
        let bytes = &file[from..];
        Tariff::read_at_the_start(bytes, places)
            .map(|(tariff, end)| (tariff, from + end))
            .map_err(|refusal| Refusal(refusal.0 + from as u64))
    }

    #[inline(always)]
    fn read_at_the_start(bytes: &'a [u8], places: &'a mut Places) -> Result<(Tariff<'a>, usize), Refusal> {
        let Areas { many, cities, end, are_faultless: well } = read_areas(bytes, places);
        if !well {
            return Err(fault_behind(&first_faulty_area(bytes), bytes));
        }
        let (due, behind) = (many - cities, &bytes[end..]);
        let factors = behind.get(..FACTOR * due).map(|records| records.as_chunks().0);
        let Some(factors) = factors.filter(|factors| are_faultless(factors)) else {
            return Err(fault_among_factors(bytes, end, due));
        };
        let start = end + FACTOR * due;
        let end = match all_are_faultless(bytes, start, many) {
            Ok(()) => bytes.len(),
            Err(faultless) => end_of_stops(bytes, start, many, faultless)?,
        };
        Ok((Tariff { bytes, places, areas: many, factors, stops: bytes[start..end].as_chunks().0 }, end))
    }

    /// What areas of both kinds have.
    #[inline(always)]
    pub fn area(&self, number: usize) -> &'a Area {
        let place = usize::from(self.places[number % MOST_AREAS]);
        self.bytes[place..].first_chunk().expect("an area's record")
    }

    /// An area that is of kind 8.
    #[inline(always)]
    pub fn aachen_area(&self, number: usize) -> &'a AachenArea {
        let place = usize::from(self.places[number % MOST_AREAS]);
        self.bytes[place..].first_chunk().expect("an area's record")
    }

    /// Whether the area is a town that drops part of the price, and has no first class.
    #[inline(always)]
    pub fn is_marked_town(&self, area: usize) -> bool {
        is_aachen(self.area(area)) && self.aachen_area(area)[41] != 0
    }

    /// The factor that a trip of this area goes by, and whether it has the mark.
    #[inline(always)]
    pub fn factor_for(&self, area: usize) -> (i64, bool) {
        let earlier = (0..self.region_of(area)).filter(|&area| self.area(area)[4] != CITY).count();
        let record = &self.factors[earlier];
        (record[4].into(), record[5] != 0)
    }

    /// The region that the area is or lies in; of the state the state.
    #[inline(always)]
    fn region_of(&self, area: usize) -> usize {
        let record = self.area(area);
        if record[4] == CITY {
            usize::from(record[5])
        } else {
            area
        }
    }

    /// The smallest area containing all of these, each a bit; there is at least one.
    #[inline(always)]
    pub fn smallest_containing(&self, areas: u32) -> usize {
        let first = areas.trailing_zeros() as usize;
        let mut others = areas & areas.wrapping_sub(1);
        // Of different areas the smallest that contains them is a region or the state, which contains any.
        if others == 0 || first == 0 {
            return first;
        }
        let region = self.region_of(first);
        while others != 0 {
            if self.region_of(others.trailing_zeros() as usize) != region {
                return 0;
            }
            others &= others - 1;
        }
        region
    }
}

#[inline(always)]
pub fn is_aachen(area: &Area) -> bool {
    area[2] == 8
}

/// Of kind 8 it is the cap on a bicycle's payments.
#[inline(always)]
pub fn bicycle_flat(area: &Area) -> Cents {
    two(area, 27)
}

/// How many records are faultless, up to the first that is not, and where they end. So many factor records are due for
/// the areas.
pub struct Faultless {
    pub areas: usize,
    pub due: usize,
    pub factors: usize,
    pub stops: usize,
    pub end: usize,
}

#[cold]
#[inline(never)]
fn fault_among_factors(bytes: &[u8], end: usize, due: usize) -> Refusal {
    let areas = first_faulty_area(bytes);
    let factors = faultless_factors(&bytes[end..], due);
    fault_behind(&Faultless { factors, end: end + FACTOR * factors, ..areas }, bytes)
}

/// Where the stops end, if another edition is opened there.
#[inline(never)]
fn end_of_stops(bytes: &[u8], start: usize, areas: usize, faultless: usize) -> Result<usize, Refusal> {
    let stops = faultless + faultless_stops(&bytes[start + STOP * faultless..], areas, MOST_STOPS - faultless);
    let end = start + STOP * stops;
    if opens(bytes, end) {
        return Ok(end);
    }
    // All factor records that are due stand before them, and one always is.
    Err(fault_behind(&Faultless { areas, due: 1, factors: 1, stops, end }, bytes))
}

/// The fault of the record behind the faultless ones: 1 where its frame is broken, 3 where a record of its length and kind
/// may stand there, else 2.
#[cold]
#[inline(never)]
fn fault_behind(&Faultless { areas, due, factors, stops, end }: &Faultless, bytes: &[u8]) -> Refusal {
    let rest = &bytes[end..];
    let number = match rest.first_chunk() {
        Some(head) if has_whole_frame(head, rest.len()) => match four(head, 0) {
            AREA_HEAD | AACHEN_HEAD if factors == 0 && stops == 0 && areas < MOST_AREAS => 3,
            FACTOR_HEAD if factors < due => 3,
            STOP_HEAD if areas > 0 && factors == due && stops < MOST_STOPS => 3,
            _ => 2,
        },
        None if rest.is_empty() => 2,
        _ => 1,
    };
    Refusal::at(number, end)
}

/// Whether a record with this head has a good length and ends within so many bytes.
pub fn has_whole_frame(head: &[u8; 4], bytes: usize) -> bool {
    let length = two(head, 0) as usize;
    (2..=1_024).contains(&length) && 2 + length <= bytes
}
