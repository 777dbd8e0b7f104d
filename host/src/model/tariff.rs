//! The tariff of an edition: 1 to 32 areas, then a factor record for the state and for each region, then 0 to 1,000 stops.
//! Refusals 2 and 3.

use super::record::{Fields, Record, KIND_AACHEN_AREA, KIND_AREA, KIND_FACTOR, KIND_STOP};
use super::{Cents, Metres, Minutes};
use std::ops::RangeInclusive;

pub const MOST_AREAS: usize = 32;
pub const MOST_STOPS: usize = 1_000;

const AREA_BODY: usize = 25;
const AACHEN_AREA_BODY: usize = 38;
const FACTOR_BODY: usize = 2;
const STOP_BODY: usize = 9;

/// The day cap that means none.
pub const NO_DAY_CAP: u64 = 65_535;

pub const BASE_PRICES: RangeInclusive<Cents> = 0..=10_000;
pub const PRICES_PER_KM: RangeInclusive<Cents> = 0..=1_000;
/// All other money.
pub const MONEY: RangeInclusive<Cents> = 0..=60_000;
pub const VALIDITIES: RangeInclusive<Minutes> = 30..=1_440;
pub const PERCENTAGES: RangeInclusive<u64> = 0..=100;
pub const FACTORS: RangeInclusive<u64> = 1..=9;
pub const METRES: RangeInclusive<Metres> = 0..=1_000_000;

#[derive(Clone, Copy, Debug, PartialEq, Eq)]
pub enum Level {
    State,
    Region,
    City,
}

/// The sort of trip cap that an area has, with that sort's own numbers.
#[derive(Clone, Debug, PartialEq, Eq)]
pub enum TripCap {
    None,
    Flat { amount: Cents, minutes: Minutes },
    ByLevel { k: Cents, a: Cents, b: Cents, c: Cents, d: Cents },
}

/// An area's kind, with what only that kind has.
#[derive(Clone, Debug, PartialEq, Eq)]
pub enum Kind {
    /// Kind 1.
    Common,
    /// Kind 8. The child ticket is of the same sort as the adult's trip cap.
    Aachen { child_ticket: TripCap, bicycle_price: Cents, town: Town },
}

/// What a town drops from the price of rides inside it. One that drops something is marked.
#[derive(Clone, Copy, Debug, PartialEq, Eq)]
pub enum Town {
    Unmarked,
    BaseDropped,
    KmDropped,
}

#[derive(Clone, Debug, PartialEq, Eq)]
pub struct Area {
    pub level: Level,
    pub parent: usize,
    pub base_price: Cents,
    pub price_per_km: Cents,
    pub base_validity: Minutes,
    /// First-class surcharge in per cent.
    pub surcharge: u64,
    /// Child reduction in per cent.
    pub reduction: u64,
    pub trip_cap: TripCap,
    pub day_cap: Option<Cents>,
    /// Of kind 8 it is no flat, but the cap on a bicycle's payments in a window.
    pub bicycle_flat: Cents,
    pub kind: Kind,
}

impl Area {
    pub fn is_aachen(&self) -> bool {
        self.kind != Kind::Common
    }

    pub fn town(&self) -> Town {
        match self.kind {
            Kind::Common => Town::Unmarked,
            Kind::Aachen { town, .. } => town,
        }
    }

    /// Whether it has no trip cap, no child ticket and no first class.
    pub fn is_marked_town(&self) -> bool {
        self.town() != Town::Unmarked
    }
}

/// What a factor record says: when a trip is broken.
#[derive(Clone, Debug, PartialEq, Eq)]
pub struct Factor {
    /// 1 to 9.
    pub factor: u64,
    /// Whether trips inside a city of the region are never broken.
    pub keeps_city_trips: bool,
}

#[derive(Clone, Debug, PartialEq, Eq)]
pub struct Stop {
    pub area: usize,
    pub x: Metres,
    pub y: Metres,
}

/// Areas and stops, each numbered from 0 in order. The factors are those of the state and the regions, in the order of
/// the areas; cities have none.
#[derive(Clone, Debug, PartialEq, Eq)]
pub struct Tariff {
    pub areas: Vec<Area>,
    pub factors: Vec<Factor>,
    pub stops: Vec<Stop>,
}

impl Tariff {
    /// As it is where an edition was opened.
    pub fn empty() -> Tariff {
        Tariff { areas: Vec::new(), factors: Vec::new(), stops: Vec::new() }
    }

    /// Takes the next record, or tells its fault, 2 or 3.
    pub fn go_on_with(&mut self, record: &Record) -> Result<(), u32> {
        if !self.may_go_on_with(record) {
            return Err(2);
        }
        match record.kind {
            KIND_AREA | KIND_AACHEN_AREA => self.areas.push(read_area(record, &self.areas).ok_or(3u32)?),
            KIND_FACTOR => self.factors.push(read_factor(record.body, self.factors.is_empty()).ok_or(3u32)?),
            _ => self.stops.push(read_stop(record.body, self.areas.len()).ok_or(3u32)?),
        }
        Ok(())
    }

    /// Whether no record is due any more: it has areas, and all of their factor records.
    pub fn is_whole(&self) -> bool {
        !self.areas.is_empty() && self.factors.len() == self.factors_due()
    }

    /// Whether kind, body length, order and number let this record come next.
    fn may_go_on_with(&self, record: &Record) -> bool {
        let length = record.body.len();
        match record.kind {
            KIND_AREA => length == AREA_BODY && self.may_have_another_area(),
            KIND_AACHEN_AREA => length == AACHEN_AREA_BODY && self.may_have_another_area(),
            KIND_FACTOR => length == FACTOR_BODY && self.stops.is_empty() && self.factors.len() < self.factors_due(),
            KIND_STOP => length == STOP_BODY && self.is_whole() && self.stops.len() < MOST_STOPS,
            _ => false,
        }
    }

    /// Of either kind; 32 together.
    fn may_have_another_area(&self) -> bool {
        self.factors.is_empty() && self.stops.is_empty() && self.areas.len() < MOST_AREAS
    }

    /// One factor record for the state and one for each region.
    fn factors_due(&self) -> usize {
        self.areas.iter().filter(|area| area.level != Level::City).count()
    }

    /// The factor record that an area goes by: that of the region which contains it, else the state's.
    pub fn factor_for(&self, area: usize) -> &Factor {
        let owner = match self.areas[area].level {
            Level::City => self.areas[area].parent,
            Level::Region | Level::State => area,
        };
        let earlier = self.areas[..owner].iter().filter(|area| area.level != Level::City).count();
        &self.factors[earlier]
    }

    /// The area itself, then every area above it up to the state.
    pub fn area_and_those_above(&self, area: usize) -> Vec<usize> {
        let mut chain = vec![area];
        let mut area = area;
        while area != 0 {
            area = self.areas[area].parent;
            chain.push(area);
        }
        chain
    }

    /// Whether `inner` is `outer` or lies within it.
    pub fn contains(&self, outer: usize, inner: usize) -> bool {
        self.area_and_those_above(inner).contains(&outer)
    }

    /// The smallest area containing all of these; there is at least one, and the state contains any.
    pub fn smallest_containing(&self, areas: &[usize]) -> usize {
        self.area_and_those_above(areas[0])
            .into_iter()
            .find(|&outer| areas.iter().all(|&inner| self.contains(outer, inner)))
            .expect("the state contains every area")
    }

    /// The smallest area containing the areas of all these stops.
    pub fn area_of_stops(&self, stops: &[usize]) -> usize {
        let areas: Vec<usize> = stops.iter().map(|&stop| self.stops[stop].area).collect();
        self.smallest_containing(&areas)
    }
}

/// The area that comes after the `earlier` ones, or nothing where a value is outside the rules.
fn read_area(record: &Record, earlier: &[Area]) -> Option<Area> {
    let mut fields = Fields::of(record.body);
    let level = read_level(fields.next(1))?;
    let parent = fields.next(1) as usize;
    let base_price = fields.next(2);
    let price_per_km = fields.next(2);
    let base_validity = fields.next(2);
    let surcharge = fields.next(1);
    let reduction = fields.next(1);
    let sort = fields.next(1);
    let trip_cap = read_trip_cap(sort, &fields.next_many(5, 2))?;
    let day_cap = read_day_cap(fields.next(2))?;
    let bicycle_flat = fields.next(2);
    let kind = match record.kind {
        KIND_AACHEN_AREA => read_aachen(&mut fields, level, &trip_cap)?,
        _ => Kind::Common,
    };

    let in_range = BASE_PRICES.contains(&base_price)
        && PRICES_PER_KM.contains(&price_per_km)
        && VALIDITIES.contains(&base_validity)
        && PERCENTAGES.contains(&surcharge)
        && PERCENTAGES.contains(&reduction)
        && MONEY.contains(&bicycle_flat);
    if !in_range || !is_parent(level, parent, earlier) {
        return None;
    }
    let area = Area {
        level,
        parent,
        base_price,
        price_per_km,
        base_validity,
        surcharge,
        reduction,
        trip_cap,
        day_cap,
        bicycle_flat,
        kind,
    };
    // Area 0 is its own parent, and none is above it.
    let well = match earlier.get(parent) {
        None => !area.is_aachen(),
        Some(above) => fits_below(&area, above),
    };
    well.then_some(area)
}

/// A city is of its region's kind. A flat is at most the flat above, a cap at most the cap above; a region's cap has none
/// above it.
fn fits_below(area: &Area, above: &Area) -> bool {
    let is_of_one_kind = area.is_aachen() == above.is_aachen();
    (area.level == Level::Region || is_of_one_kind) && (!is_of_one_kind || area.bicycle_flat <= above.bicycle_flat)
}

/// What stands behind the 25 bytes of kind 1, in an area with this level and trip cap.
fn read_aachen(fields: &mut Fields, level: Level, trip_cap: &TripCap) -> Option<Kind> {
    let child_ticket = read_child_ticket(trip_cap, &fields.next_many(5, 2))?;
    let bicycle_price = fields.next(2);
    let town = read_town(fields.next(1), level)?;
    MONEY.contains(&bicycle_price).then_some(Kind::Aachen { child_ticket, bicycle_price, town })
}

/// By the trip cap's sort. Sort 0: five zeros. Sort 1: amount, four zeros; the minutes are the trip cap's. Sort 2: amounts
/// for levels K, A, B, C, D.
fn read_child_ticket(trip_cap: &TripCap, fields: &[u64]) -> Option<TripCap> {
    match (trip_cap, fields) {
        (TripCap::None, &[0, 0, 0, 0, 0]) => Some(TripCap::None),
        (&TripCap::Flat { minutes, .. }, &[amount, 0, 0, 0, 0]) if MONEY.contains(&amount) => {
            Some(TripCap::Flat { amount, minutes })
        }
        (TripCap::ByLevel { .. }, &[k, a, b, c, d]) if fields.iter().all(|amount| MONEY.contains(amount)) => {
            Some(TripCap::ByLevel { k, a, b, c, d })
        }
        _ => None,
    }
}

/// 0 is no mark, 1 drops the base price, 2 the price per kilometre. Only a city has one.
fn read_town(mark: u64, level: Level) -> Option<Town> {
    match (mark, level) {
        (0, _) => Some(Town::Unmarked),
        (1, Level::City) => Some(Town::BaseDropped),
        (2, Level::City) => Some(Town::KmDropped),
        _ => None,
    }
}

fn read_level(level: u64) -> Option<Level> {
    match level {
        0 => Some(Level::State),
        1 => Some(Level::Region),
        2 => Some(Level::City),
        _ => None,
    }
}

/// Sort 0: five zeros. Sort 1: amount, minutes, three zeros. Sort 2: amounts for levels K, A, B, C, D.
fn read_trip_cap(sort: u64, fields: &[u64]) -> Option<TripCap> {
    match (sort, fields) {
        (0, &[0, 0, 0, 0, 0]) => Some(TripCap::None),
        (1, &[amount, minutes, 0, 0, 0]) if MONEY.contains(&amount) && VALIDITIES.contains(&minutes) => {
            Some(TripCap::Flat { amount, minutes })
        }
        (2, &[k, a, b, c, d]) if fields.iter().all(|amount| MONEY.contains(amount)) => {
            Some(TripCap::ByLevel { k, a, b, c, d })
        }
        _ => None,
    }
}

/// The outer nothing is a fault, the inner one an area without a day cap.
fn read_day_cap(day_cap: u64) -> Option<Option<Cents>> {
    match day_cap {
        NO_DAY_CAP => Some(None),
        amount if MONEY.contains(&amount) => Some(Some(amount)),
        _ => None,
    }
}

/// Area 0 alone has level 0, parent 0. A region's parent is 0; a city's is an earlier region.
fn is_parent(level: Level, parent: usize, earlier: &[Area]) -> bool {
    match level {
        Level::State => earlier.is_empty() && parent == 0,
        Level::Region => !earlier.is_empty() && parent == 0,
        Level::City => earlier.get(parent).is_some_and(|above| above.level == Level::Region),
    }
}

/// The factor is 1 to 9, the mark 0 or 1. The first record is the state's, and its mark is 0.
fn read_factor(body: &[u8], is_states: bool) -> Option<Factor> {
    let mut fields = Fields::of(body);
    let (factor, mark) = (fields.next(1), fields.next(1));
    let well = FACTORS.contains(&factor) && mark <= if is_states { 0 } else { 1 };
    well.then_some(Factor { factor, keeps_city_trips: mark == 1 })
}

/// A stop's area exists; x and y are 0..1,000,000.
fn read_stop(body: &[u8], areas: usize) -> Option<Stop> {
    let mut fields = Fields::of(body);
    let stop = Stop { area: fields.next(1) as usize, x: fields.next(4), y: fields.next(4) };
    let well = stop.area < areas && METRES.contains(&stop.x) && METRES.contains(&stop.y);
    well.then_some(stop)
}
