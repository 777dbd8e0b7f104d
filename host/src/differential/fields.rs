//! Where each field of a record stands, and the values just inside and just outside its range.

use crate::model::editions::File;
use crate::model::tariff::{Area, Tariff};
use crate::numbers::number;

/// Bytes of an edition's opening, of an area record of kind 1 and of kind 8, of a factor record, of a stop record, and of a trip
/// record before its stops.
pub const OPENING: usize = 8;
pub const AREA: usize = 29;
pub const AACHEN_AREA: usize = 42;
pub const FACTOR: usize = 6;
pub const STOP: usize = 13;
pub const TRIP_HEAD: usize = 24;

/// How many areas, factor records and stops an edition has; they stand in this order behind its opening.
#[derive(Clone, Debug)]
pub struct Layout {
    /// Where the opening begins in the file.
    pub opening: usize,
    pub areas: usize,
    pub factors: usize,
    pub stops: usize,
    /// The bytes of each area.
    sizes: Vec<usize>,
}

impl Layout {
    /// Those of a file's editions.
    pub fn all_of(file: &File) -> Vec<Layout> {
        let mut all: Vec<Layout> = Vec::new();
        for edition in &file.editions {
            let opening = all.last().map_or(0, |before| before.end());
            all.push(Layout::of(&edition.tariff, opening));
        }
        all
    }

    /// That of an edition with this tariff whose opening begins there.
    fn of(tariff: &Tariff, opening: usize) -> Layout {
        let size = |area: &Area| if area.is_aachen() { AACHEN_AREA } else { AREA };
        let sizes: Vec<usize> = tariff.areas.iter().map(size).collect();
        Layout { opening, areas: sizes.len(), factors: tariff.factors.len(), stops: tariff.stops.len(), sizes }
    }

    /// Where the area of this number begins; that behind the last one is where the factor records begin.
    pub fn area(&self, number: usize) -> usize {
        self.opening + OPENING + self.sizes[..number].iter().sum::<usize>()
    }

    pub fn area_size(&self, number: usize) -> usize {
        self.sizes[number]
    }

    /// The area's fields, those of kind 8 behind those of kind 1.
    pub fn area_fields(&self, number: usize) -> &'static [Field] {
        if self.sizes[number] == AREA {
            &AREA_FIELDS[..COMMON_FIELDS]
        } else {
            &AREA_FIELDS
        }
    }

    /// Where the factor record of this number begins; that behind the last one is where the stops begin.
    pub fn factor(&self, number: usize) -> usize {
        self.area(self.areas) + FACTOR * number
    }

    pub fn stop(&self, number: usize) -> usize {
        self.factor(self.factors) + STOP * number
    }

    /// Where the next edition's opening begins, or the file ends.
    pub fn end(&self) -> usize {
        self.stop(self.stops)
    }

    /// Where each record begins, the opening first, and where the edition ends.
    pub fn places(&self) -> Vec<usize> {
        let areas = (0..self.areas).map(|area| self.area(area));
        let factors = (0..self.factors).map(|factor| self.factor(factor));
        let stops = (0..=self.stops).map(|stop| self.stop(stop));
        [self.opening].into_iter().chain(areas).chain(factors).chain(stops).collect()
    }
}

/// A field of a record, counted from the record's first byte.
pub struct Field {
    pub place: usize,
    pub width: usize,
    /// Just inside and just outside, and the ends of what fits in the width.
    pub edges: &'static [u64],
}

const fn field(place: usize, width: usize, edges: &'static [u64]) -> Field {
    Field { place, width, edges }
}

pub const LENGTHS: Field = field(0, 2, &[0, 1, 2, 3, 4, 6, 11, 27, 40, 1_023, 1_024, 1_025, 65_535]);
pub const KINDS: Field =
    field(2, 2, &[0, 1, 2, 3, 4, 5, 6, 7, 8, 9, 10, 256, 257, 258, 259, 261, 263, 264, 265, 65_535]);

const PERCENTAGE: &[u64] = &[0, 1, 99, 100, 101, 255];
const MINUTES: &[u64] = &[0, 29, 30, 31, 1_439, 1_440, 1_441, 65_535];
const MONEY: &[u64] = &[0, 1, 59_999, 60_000, 60_001, 65_534, 65_535];
const MONEY_OR_MINUTES: &[u64] = &[0, 1, 29, 30, 1_440, 1_441, 60_000, 60_001, 65_535];
const METRES: &[u64] = &[0, 1, 999_999, 1_000_000, 1_000_001, 2_147_483_648, 4_294_967_295];

/// So many of them are kind 1's.
const COMMON_FIELDS: usize = 17;

static AREA_FIELDS: [Field; 24] = [
    LENGTHS,
    KINDS,
    field(4, 1, &[0, 1, 2, 3, 255]),
    field(5, 1, &[0, 1, 2, 31, 32, 255]),
    field(6, 2, &[0, 1, 9_999, 10_000, 10_001, 65_535]),
    field(8, 2, &[0, 1, 999, 1_000, 1_001, 65_535]),
    field(10, 2, MINUTES),
    field(12, 1, PERCENTAGE),
    field(13, 1, PERCENTAGE),
    field(14, 1, &[0, 1, 2, 3, 255]),
    field(15, 2, MONEY),
    field(17, 2, MONEY_OR_MINUTES),
    field(19, 2, MONEY),
    field(21, 2, MONEY),
    field(23, 2, MONEY),
    field(25, 2, MONEY),
    field(27, 2, MONEY),
    field(29, 2, MONEY),
    field(31, 2, MONEY),
    field(33, 2, MONEY),
    field(35, 2, MONEY),
    field(37, 2, MONEY),
    field(39, 2, MONEY),
    field(41, 1, &[0, 1, 2, 3, 255]),
];

pub static FACTOR_FIELDS: [Field; 4] =
    [LENGTHS, KINDS, field(4, 1, &[0, 1, 2, 8, 9, 10, 255]), field(5, 1, &[0, 1, 2, 255])];

pub static STOP_FIELDS: [Field; 5] =
    [LENGTHS, KINDS, field(4, 1, &[0, 1, 31, 32, 255]), field(5, 4, METRES), field(9, 4, METRES)];

const YEAR: &[u64] = &[0, 1_999, 2_000, 2_001, 2_024, 2_025, 2_096, 2_098, 2_099, 2_100, 65_535];
const MONTH: &[u64] = &[0, 1, 2, 3, 4, 6, 9, 11, 12, 13, 255];
const DAY: &[u64] = &[0, 1, 28, 29, 30, 31, 32, 255];
const HOUR: &[u64] = &[0, 1, 22, 23, 24, 255];
const MINUTE: &[u64] = &[0, 1, 58, 59, 60, 255];
const OFFSET: &[u64] = &[0, 1, 2, 3, 254, 255];
const CARRIED: &[u64] = &[0, 1, 9, 10, 11, 255];

/// Those of an edition's opening.
pub static OPENING_FIELDS: [Field; 5] = [LENGTHS, KINDS, field(4, 2, YEAR), field(6, 1, MONTH), field(7, 1, DAY)];

/// Bytes of a stamp, and where the check-in's begins; the check-out's stands behind it.
pub const STAMP: usize = 7;
pub const CHECK_IN: usize = 4;

/// Those of both stamps, in the order of their bytes.
pub static STAMP_FIELDS: [[Field; 6]; 2] = [stamp_fields(CHECK_IN), stamp_fields(CHECK_IN + STAMP)];

const fn stamp_fields(place: usize) -> [Field; 6] {
    [
        field(place, 2, YEAR),
        field(place + 2, 1, MONTH),
        field(place + 3, 1, DAY),
        field(place + 4, 1, HOUR),
        field(place + 5, 1, MINUTE),
        field(place + 6, 1, OFFSET),
    ]
}

/// Class, ticket level, adults, children and bicycles.
pub static COUNT_FIELDS: [Field; 5] = [
    field(18, 1, &[0, 1, 2, 3, 255]),
    field(19, 1, &[0, 1, 2, 3, 4, 5, 6, 255]),
    field(20, 1, CARRIED),
    field(21, 1, CARRIED),
    field(22, 1, CARRIED),
];

pub const NUMBER_OF_STOPS: Field = field(23, 1, &[0, 1, 2, 3, 31, 32, 33, 127, 255]);

/// The field of a trip's stop.
pub fn stop_field(stop: usize) -> Field {
    field(TRIP_HEAD + 2 * stop, 2, &[0, 1, 255, 256, 999, 1_000, 65_535])
}

/// The value of a field of the record at `record`; nothing where it lies outside the bytes.
pub fn value(bytes: &[u8], record: usize, field: &Field) -> Option<u64> {
    let place = record + field.place;
    bytes.get(place..place + field.width).map(number)
}

/// Sets a field of the record at `record`, unless it lies outside the bytes. A number that is too large is cut.
pub fn set(bytes: &mut [u8], record: usize, field: &Field, value: u64) {
    let place = record + field.place;
    if let Some(found) = bytes.get_mut(place..place + field.width) {
        found.copy_from_slice(&value.to_le_bytes()[..field.width]);
    }
}

/// The values to try: the edges, the neighbours of the present value, and the neighbours of these counts.
pub fn values(field: &Field, present: u64, counts: &[usize]) -> Vec<u64> {
    let largest = (1 << (8 * field.width)) - 1;
    let mut values = field.edges.to_vec();
    for near in counts.iter().map(|&count| count as u64).chain([present]) {
        values.extend([near.wrapping_sub(1), near, near + 1]);
    }
    values.retain(|&value| value <= largest);
    values.sort_unstable();
    values.dedup();
    values
}
