//! The areas of a tariff: all of them looked at first, and what was found tested once.

use super::numbers::{eight, four, two, Ranges};
use super::tariff::{
    bicycle_flat, is_aachen, AachenArea, Area, Faultless, Places, AACHEN_AREA, AACHEN_HEAD, AREA, AREA_HEAD, CITY,
    MOST_AREAS, NO_DAY_CAP,
};

/// The records at the start of a tariff that have an area's head.
pub struct Areas {
    pub many: usize,
    pub cities: usize,
    /// The bytes that they take.
    pub end: usize,
    /// Whether they are without fault, and there is one.
    pub are_faultless: bool,
}

const MOST_MONEY: u16 = 60_000;

/// Level, parent, base price, price per km and validity: the bytes from 4 on.
const PRICES: Ranges = Ranges::of(&[(8, 0, 2), (8, 0, 31), (16, 0, 10_000), (16, 0, 1_000), (16, 30, 1_440)]);

/// Numbers of two bytes.
type Eight = [u16; 8];

/// Ranges of eight numbers: the least of each, and how far above it a number may be, all on a circle of 2^16.
struct Limits {
    least: Eight,
    room: Eight,
}

/// The bytes from 11 on, by the sort of trip cap: the validity's upper byte and the surcharge; the reduction and the sort
/// itself; the trip cap's five fields; the day cap, which is none or from 0 on. The last row fits no area, and has none of the others' numbers, so
/// that each row is taken as a whole.
static BY_SORT: [Limits; 4] = [
    limits(0, [(0, 0), (0, 0), (0, 0), (0, 0), (0, 0)]),
    limits(1, [(0, MOST_MONEY), (30, 1_410), (0, 0), (0, 0), (0, 0)]),
    limits(2, [(0, MOST_MONEY); 5]),
    Limits { least: [1; 8], room: [0; 8] },
];

const fn limits(sort: u16, fields: [(u16, u16); 5]) -> Limits {
    let [a, b, c, d, e] = fields;
    Limits {
        least: [0, sort << 8, a.0, b.0, c.0, d.0, e.0, NO_DAY_CAP as u16],
        room: [100 << 8 | 0xff, 100, a.1, b.1, c.1, d.1, e.1, MOST_MONEY + 1],
    }
}

/// Of kind 8 the bytes from 25 on, by the sort: day cap and bicycle cap, which are looked at elsewhere, five child tickets,
/// the bicycle price.
static TICKETS_BY_SORT: [Eight; 4] =
    [tickets([0; 5]), tickets([MOST_MONEY, 0, 0, 0, 0]), tickets([MOST_MONEY; 5]), [0; 8]];

const fn tickets([k, a, b, c, d]: [u16; 5]) -> Eight {
    [u16::MAX, u16::MAX, k, a, b, c, d, MOST_MONEY]
}

/// Level and flat as one number, the level above with a bit between; of kind 8 with a bit besides. So of two such numbers one
/// is less than 2^16 above the other only where level and kind are the same.
const LEVEL: u32 = 1 << 17;
const AACHEN: u32 = 1 << 24;
/// What the state itself may have, and a region of kind 8, whose cap is not compared with the state's flat. An area has at
/// most what its parent allows, and no less than its level.
const STATE: u32 = MOST_MONEY as u32;
const AACHEN_REGION: u32 = AACHEN | LEVEL | MOST_MONEY as u32;
/// No area has so much that this were not too far above it.
const NOTHING: u32 = 1 << 31;

/// Bits that are set where something is wrong with an area.
struct Wrong {
    prices: u64,
    fields: Eight,
    places: u32,
}

impl Wrong {
    #[inline(always)]
    fn is_clear(&self) -> bool {
        let fields = self.fields.iter().fold(0, |bits, field| bits | field);
        self.prices & PRICES.tops() | u64::from(self.places) | u64::from(fields) == 0
    }
}

/// Looks at the areas, and puts down where each begins.
#[inline(always)]
pub fn read_areas(bytes: &[u8], places: &mut Places) -> Areas {
    let mut allowed = [NOTHING; MOST_AREAS];
    allowed[0] = STATE;
    let mut wrong = Wrong { prices: 0, fields: [0; 8], places: 0 };
    let (mut rest, mut many, mut cities) = (bytes, 0, 0);
    while let Some(area) = rest.first_chunk::<AREA>() {
        let head = four(area, 0);
        if head != AREA_HEAD && head != AACHEN_HEAD || many == MOST_AREAS {
            break;
        }
        places[many] = (bytes.len() - rest.len()) as u16;
        let prices = eight(area, 4);
        wrong.prices |= PRICES.strays(prices);
        let (numbers, sort) = (numbers_at::<11, AREA>(area), usize::from(area[14] % 4));
        let Limits { least, room } = &BY_SORT[sort];
        for field in 0..8 {
            wrong.fields[field] |= numbers[field].wrapping_sub(least[field]).saturating_sub(room[field]);
        }
        let (level, parent) = (prices as u8, (prices >> 8) as usize % MOST_AREAS);
        let (mut own, mut most) = (LEVEL * u32::from(level) + bicycle_flat(area), allowed[parent]);
        cities += usize::from(level >> 1 & 1);
        if head == AREA_HEAD {
            rest = &rest[AREA..];
        } else {
            let Some(area) = rest.first_chunk::<AACHEN_AREA>() else {
                break;
            };
            let (numbers, room) = (numbers_at::<25, AACHEN_AREA>(area), &TICKETS_BY_SORT[sort]);
            for field in 0..8 {
                wrong.fields[field] |= numbers[field].saturating_sub(room[field]);
            }
            // A city's mark is 0 to 2, any other's 0.
            wrong.places |= u32::from(level & CITY).wrapping_sub(area[41].into()) >> 16;
            own |= AACHEN;
            if parent == 0 {
                most = AACHEN_REGION;
            }
            rest = &rest[AACHEN_AREA..];
        }
        wrong.places |= most.wrapping_sub(own) >> 16;
        allowed[many] = own + LEVEL;
        many += 1;
    }
    let is_state_first = bytes.first_chunk().is_some_and(|head| four::<4>(head, 0) == AREA_HEAD);
    Areas { many, cities, end: bytes.len() - rest.len(), are_faultless: is_state_first && wrong.is_clear() }
}

/// The eight numbers from this byte on.
#[inline(always)]
fn numbers_at<const AT: usize, const N: usize>(area: &[u8; N]) -> Eight {
    let mut numbers = [0; 8];
    let bytes: &[u8; 16] = area[AT..].first_chunk().expect("a place within the record");
    for (number, &bytes) in numbers.iter_mut().zip(bytes.as_chunks().0) {
        *number = u16::from_le_bytes(bytes);
    }
    numbers
}

/// The areas before the first record that is not an area without fault.
#[cold]
#[inline(never)]
pub fn first_faulty_area(bytes: &[u8]) -> Faultless {
    let mut earlier: [&[u8]; MOST_AREAS] = [&[]; MOST_AREAS];
    let mut good = Faultless { areas: 0, due: 0, factors: 0, stops: 0, end: 0 };
    while good.areas < MOST_AREAS {
        let Some(area) = faultless_area(&bytes[good.end..], &earlier[..good.areas]) else {
            break;
        };
        earlier[good.areas] = area;
        good.areas += 1;
        good.due += usize::from(area[4] != CITY);
        good.end += area.len();
    }
    good
}

/// The first record, where it can be the area after the earlier ones.
fn faultless_area<'a>(bytes: &'a [u8], earlier: &[&[u8]]) -> Option<&'a [u8]> {
    let area: &Area = bytes.first_chunk()?;
    let well = PRICES.strays(eight(area, 4)) & PRICES.tops() == 0
        && area[12] <= 100
        && area[13] <= 100
        && trip_cap_is_in_range(area)
        && (two(area, 25) <= MOST_MONEY.into() || two(area, 25) == NO_DAY_CAP)
        && lies_in_its_parent(area, earlier);
    match four(area, 0) {
        AREA_HEAD if well => Some(area),
        AACHEN_HEAD if well => bytes.first_chunk().filter(|area| aachen_is_in_range(area)).map(|area| &area[..]),
        _ => None,
    }
}

/// Sort 0: five zeros. Sort 1: amount, minutes, three zeros. Sort 2: five amounts.
fn trip_cap_is_in_range(area: &Area) -> bool {
    let fields = [15, 17, 19, 21, 23].map(|at| two(area, at));
    match (area[14], fields) {
        (0, [0, 0, 0, 0, 0]) => true,
        (1, [amount, minutes, 0, 0, 0]) => amount <= MOST_MONEY.into() && (30..=1_440).contains(&minutes),
        (2, amounts) => amounts.iter().all(|&amount| amount <= MOST_MONEY.into()),
        _ => false,
    }
}

/// What stands behind the bytes that areas of both kinds have.
fn aachen_is_in_range(area: &AachenArea) -> bool {
    let tickets = [29, 31, 33, 35, 37].map(|at| two(area, at));
    let used = [0, 1, 5][usize::from(area[14])];
    let tickets_are_in_range =
        tickets.iter().enumerate().all(|(ticket, &amount)| amount <= if ticket < used { MOST_MONEY.into() } else { 0 });
    tickets_are_in_range && two(area, 39) <= MOST_MONEY.into() && area[41] <= area[4] & CITY
}

/// A region lies in the state and a city in a region of its kind, so an area's level is one above its parent's.
fn lies_in_its_parent(area: &Area, earlier: &[&[u8]]) -> bool {
    let Some(parent) = earlier.get(usize::from(area[5])) else {
        return earlier.is_empty() && two(area, 4) == 0 && !is_aachen(area) && bicycle_flat(area) <= MOST_MONEY.into();
    };
    let parent: &Area = parent.first_chunk().expect("an area's record");
    let most = match (is_aachen(parent), is_aachen(area)) {
        (false, true) if area[4] == 1 => MOST_MONEY.into(),
        (one, other) if one == other => bicycle_flat(parent),
        _ => return false,
    };
    parent[4] < CITY && area[4] == parent[4] + 1 && bicycle_flat(area) <= most
}
