//! Faultless tariff files of all sorts.

use super::fields::{AACHEN_AREA, FACTOR, OPENING, STOP};
use super::random::Random;
use super::trips::{local_stamp, DAY, LAST_MINUTE};
use crate::numbers::put;

/// The day cap that means none.
const NONE: u64 = 65_535;

/// An area's numbers as the record holds them.
struct Area {
    level: u64,
    parent: usize,
    base: u64,
    km: u64,
    validity: u64,
    first: u64,
    child: u64,
    sort: u64,
    trip_cap: [u64; 5],
    day_cap: u64,
    flat: u64,
    aachen: Option<Aachen>,
}

/// What only an area of kind 8 has.
struct Aachen {
    tickets: [u64; 5],
    bicycle_price: u64,
    town: u64,
}

/// How a tariff's numbers are chosen.
#[derive(Clone, Copy)]
enum Numbers {
    /// As in the published papers, with caps that a few trips reach.
    Ordinary,
    /// Anywhere in their ranges.
    Wide,
    /// At the ends of their ranges.
    Ends,
}

/// A faultless file of one or two editions. Of two the second mostly begins within the next days, and at times before `now`; at
/// times no edition has begun.
pub fn file(random: &mut Random, now: u64) -> Vec<u8> {
    let today = now / DAY;
    let first = match random.below(20) {
        0 => today + 1,
        1..4 => today,
        4..7 => random.within(0, today),
        _ => 0,
    };
    let soon = today + random.pick(&[0, 1, 1, 1, 2]);
    let second = match random.below(10) {
        0..5 => soon.max(first + 1),
        5..7 => random.within(first + 1, today.max(first + 1)),
        7 => first + 1,
        8 => random.within(first + 1, (today + 4_000).max(first + 1)),
        _ => LAST_MINUTE / DAY,
    };
    let is_one = random.chance(40) || second > LAST_MINUTE / DAY || second <= first;
    let first = first.min(LAST_MINUTE / DAY);
    let mut bytes = edition(first, &tariff(random));
    if !is_one {
        bytes.extend(edition(second, &tariff(random)));
    }
    bytes
}

/// An edition: an opening with the date that is so many days after 2000-01-01, and this tariff.
pub fn edition(days: u64, tariff: &[u8]) -> Vec<u8> {
    let mut bytes = opening(days);
    bytes.extend(tariff);
    bytes
}

/// The opening of an edition from the date that is so many days after 2000-01-01.
pub fn opening(days: u64) -> Vec<u8> {
    let mut bytes = Vec::with_capacity(OPENING);
    put(&mut bytes, 2, OPENING as u64 - 2);
    put(&mut bytes, 2, 9);
    bytes.extend(&local_stamp(days * DAY, 0)[..4]);
    bytes
}

/// The largest file: two editions, each of the state, 31 regions of kind 8, 32 factor records and 1,000 stops.
pub fn largest_file(random: &mut Random) -> Vec<u8> {
    [edition(0, &largest_tariff(random)), edition(1, &largest_tariff(random))].concat()
}

fn largest_tariff(random: &mut Random) -> Vec<u8> {
    let mut areas = vec![next_area(random, &[], 100, Numbers::Ordinary)];
    while areas.len() < 32 {
        let region = next_area(random, &areas, 100, Numbers::Ordinary);
        if region.aachen.is_some() {
            areas.push(region);
        }
    }
    tariff_of(random, &areas, 1_000, Numbers::Ordinary)
}

/// A faultless tariff: most are small, a few are as large as can be.
fn tariff(random: &mut Random) -> Vec<u8> {
    let areas = match random.below(100) {
        0..6 => 1,
        6..12 => 2,
        12..95 => random.within(3, 9),
        95..98 => random.within(10, 31),
        _ => 32,
    };
    let stops = match random.below(100) {
        0 => 0,
        1..3 => 1,
        3..97 => random.within(2 * areas, 4 * areas + 4),
        97..99 => random.within(100, 300),
        _ => 1_000,
    };
    let numbers = match random.below(100) {
        0..76 => Numbers::Ordinary,
        76..88 => Numbers::Wide,
        _ => Numbers::Ends,
    };
    tariff_with(random, areas as usize, stops as usize, numbers)
}

/// An ordinary tariff with this many areas and stops.
pub fn ordinary_tariff(random: &mut Random, areas: usize, stops: usize) -> Vec<u8> {
    tariff_with(random, areas, stops, Numbers::Ordinary)
}

fn tariff_with(random: &mut Random, areas: usize, stops: usize, numbers: Numbers) -> Vec<u8> {
    let per_cent_regions = random.pick(&[25, 25, 25, 25, 25, 100]);
    let mut earlier: Vec<Area> = Vec::new();
    for _ in 0..areas {
        let area = next_area(random, &earlier, per_cent_regions, numbers);
        earlier.push(area);
    }
    tariff_of(random, &earlier, stops, numbers)
}

/// A tariff of these areas with so many stops.
fn tariff_of(random: &mut Random, areas: &[Area], stops: usize, numbers: Numbers) -> Vec<u8> {
    let mut bytes = Vec::with_capacity((AACHEN_AREA + FACTOR) * areas.len() + STOP * stops);
    for area in areas {
        put_area(&mut bytes, area);
    }
    let factors = put_factors(random, &mut bytes, areas, numbers);
    put_stops(random, &mut bytes, &factors, stops);
    bytes
}

/// Puts one for the state and one for each region; the answer is that of each area, and a city's is its region's.
fn put_factors(random: &mut Random, bytes: &mut Vec<u8>, areas: &[Area], numbers: Numbers) -> Vec<u64> {
    let mut factors: Vec<u64> = Vec::new();
    for area in areas {
        if area.level == 2 {
            factors.push(factors[area.parent]);
        } else {
            let factor = factor(random, numbers);
            put_factor(bytes, factor, random.below(1 + area.level));
            factors.push(factor);
        }
    }
    factors
}

/// Puts so many stops, at times three in one area that are just at its factor.
fn put_stops(random: &mut Random, bytes: &mut Vec<u8>, factors: &[u64], stops: usize) {
    let mut last = [500_000, 500_000];
    let mut many = 0;
    while many < stops {
        let area = random.index(factors.len());
        last = next_position(random, last);
        let group = if random.chance(25) { at_the_factor(random, last, factors[area]) } else { vec![last] };
        for &position in group.iter().take(stops - many) {
            put_stop(bytes, area as u64, position);
        }
        many += group.len();
    }
}

/// As in the published papers or near it, or any.
fn factor(random: &mut Random, numbers: Numbers) -> u64 {
    match numbers {
        Numbers::Ordinary => random.pick(&[1, 2, 3, 3, 4]),
        Numbers::Wide => random.within(1, 9),
        Numbers::Ends => random.pick(&[1, 9]),
    }
}

/// Three stops: the third is the factor times as far from the first as the second is, or a metre more or less. The first
/// is this one, or one from which the others stay in the plane.
fn at_the_factor(random: &mut Random, [x, y]: [u64; 2], factor: u64) -> Vec<[u64; 2]> {
    let [x, y] = if x.max(y) < 800_000 { [x, y] } else { [500_000, 500_000] };
    let [dx, dy] = random.pick(&[[1, 0], [1_000, 0], [0, 1_000], [3_000, 4_000], [5_000, 12_000], [777, 333]]);
    let third = [x + factor * dx, y + factor * dy];
    let third = match random.below(5) {
        0 => [third[0] + 1, third[1]],
        1 => [third[0].saturating_sub(1), third[1]],
        _ => third,
    };
    vec![[x, y], [x + dx, y + dy], third]
}

fn next_area(random: &mut Random, earlier: &[Area], per_cent_regions: u64, numbers: Numbers) -> Area {
    let regions: Vec<usize> = (0..earlier.len()).filter(|&area| earlier[area].level == 1).collect();
    let (level, parent) = if earlier.is_empty() {
        (0, 0)
    } else if regions.is_empty() || random.chance(per_cent_regions) {
        (1, 0)
    } else {
        (2, random.pick(&regions))
    };
    let above = earlier.get(parent);
    let is_aachen = match level {
        0 => false,
        1 => random.chance(60),
        _ => above.is_some_and(|above| above.aachen.is_some()),
    };
    // A cap is not compared with the state's flat.
    let most = above.filter(|_| level == 2 || !is_aachen).map_or(60_000, |above| above.flat);
    let (sort, trip_cap) = trip_cap(random, numbers);
    let mut area = Area {
        level,
        parent,
        base: money(random, numbers, 60, 300, 10_000),
        km: money(random, numbers, 2, 40, 1_000),
        validity: minutes(random, numbers),
        first: percentage(random, numbers),
        child: percentage(random, numbers),
        sort,
        trip_cap,
        day_cap: day_cap(random, numbers, level),
        flat: money(random, numbers, 100, 600, 60_000).min(most),
        aachen: is_aachen.then(|| aachen(random, numbers, level, sort)),
    };
    // What a marked town does not compare would mostly cut.
    if area.aachen.as_ref().is_some_and(|aachen| aachen.town != 0) {
        let amounts = if area.sort == 2 { 5 } else { 1 };
        area.trip_cap[..amounts].iter_mut().for_each(|amount| *amount /= 4);
    }
    match (random.below(10), above) {
        // The caps of the area above, so that both leave the same.
        (0..2, Some(above)) => (area.first, area.child, area.day_cap) = (above.first, above.child, above.day_cap),
        // Caps of some whole prices, so that one leaves exactly a price.
        (2, _) => (area.km, area.day_cap) = (0, area.base * random.within(1, 4)),
        _ => (),
    }
    area
}

/// Child tickets by the trip cap's sort, a price per trip that a few rides bring to the cap, and at times a mark.
fn aachen(random: &mut Random, numbers: Numbers, level: u64, sort: u64) -> Aachen {
    let used = [0, 1, 5][sort as usize];
    let mut tickets = [0; 5];
    for ticket in &mut tickets[..used] {
        *ticket = money(random, numbers, 20, 150, 60_000);
    }
    let bicycle_price = money(random, numbers, 80, 250, 60_000);
    let town = if level == 2 { random.pick(&[0, 0, 0, 1, 2]) } else { 0 };
    Aachen { tickets, bicycle_price, town }
}

/// An amount of up to `most`; an ordinary one is from `low` to `high`.
fn money(random: &mut Random, numbers: Numbers, low: u64, high: u64, most: u64) -> u64 {
    match numbers {
        Numbers::Ordinary => random.within(low, high),
        Numbers::Wide => random.within(0, most),
        Numbers::Ends => random.pick(&[0, 1, most - 1, most, most]),
    }
}

fn minutes(random: &mut Random, numbers: Numbers) -> u64 {
    match numbers {
        Numbers::Ordinary => random.pick(&[30, 60, 90, 90, 240, 360]),
        Numbers::Wide => random.within(30, 1_440),
        Numbers::Ends => random.pick(&[30, 31, 1_439, 1_440]),
    }
}

fn percentage(random: &mut Random, numbers: Numbers) -> u64 {
    match numbers {
        Numbers::Ordinary => random.pick(&[50, 50, 50, 33, 25, 60, 0, 0]),
        Numbers::Wide => random.within(0, 100),
        Numbers::Ends => random.pick(&[0, 1, 99, 100]),
    }
}

fn trip_cap(random: &mut Random, numbers: Numbers) -> (u64, [u64; 5]) {
    let mut amounts = [0; 5];
    let sort = random.pick(&[0, 1, 1, 2, 2]);
    if sort == 1 {
        amounts[0] = money(random, numbers, 100, 400, 60_000);
        amounts[1] = minutes(random, numbers);
    }
    if sort == 2 {
        amounts = amounts.map(|_| money(random, numbers, 150, 1_500, 60_000));
    }
    (sort, amounts)
}

/// None, or one that a few ordinary trips reach; at times a larger area has a smaller one than those within it.
fn day_cap(random: &mut Random, numbers: Numbers, level: u64) -> u64 {
    if random.chance(20) {
        return NONE;
    }
    match (numbers, level) {
        (Numbers::Ordinary, _) if random.chance(15) => random.within(0, 2_500),
        (Numbers::Ordinary, 0) => random.within(1_200, 4_000),
        (Numbers::Ordinary, 1) => random.within(700, 3_000),
        _ => money(random, numbers, 150, 700, 60_000),
    }
}

/// Near by, an exact number of kilometres from the last one but for a metre, or at an end of the plane.
fn next_position(random: &mut Random, last: [u64; 2]) -> [u64; 2] {
    match random.below(10) {
        0..6 => [random.within(480_000, 520_000), random.within(480_000, 520_000)],
        6..9 => {
            let [dx, dy] = random.pick(&[[1_000, 0], [0, 1_000], [3_000, 4_000], [5_000, 12_000], [8_000, 6_000]]);
            let times = random.pick(&[0, 1, 1, 2, 3]);
            let metre = random.pick(&[0, 0, 1]);
            [(last[0] + times * dx + metre).min(1_000_000), (last[1] + times * dy).min(1_000_000)]
        }
        _ => [random.pick(&[0, 1, 999_999, 1_000_000]), random.pick(&[0, 1, 999_999, 1_000_000])],
    }
}

fn put_area(bytes: &mut Vec<u8>, area: &Area) {
    let (length, kind) = if area.aachen.is_some() { (40, 8) } else { (27, 1) };
    put(bytes, 2, length);
    put(bytes, 2, kind);
    put(bytes, 1, area.level);
    put(bytes, 1, area.parent as u64);
    put(bytes, 2, area.base);
    put(bytes, 2, area.km);
    put(bytes, 2, area.validity);
    put(bytes, 1, area.first);
    put(bytes, 1, area.child);
    put(bytes, 1, area.sort);
    for amount in area.trip_cap {
        put(bytes, 2, amount);
    }
    put(bytes, 2, area.day_cap);
    put(bytes, 2, area.flat);
    if let Some(Aachen { tickets, bicycle_price, town }) = &area.aachen {
        for &ticket in tickets {
            put(bytes, 2, ticket);
        }
        put(bytes, 2, *bicycle_price);
        put(bytes, 1, *town);
    }
}

fn put_factor(bytes: &mut Vec<u8>, factor: u64, mark: u64) {
    put(bytes, 2, 4);
    put(bytes, 2, 5);
    put(bytes, 1, factor);
    put(bytes, 1, mark);
}

fn put_stop(bytes: &mut Vec<u8>, area: u64, [x, y]: [u64; 2]) {
    put(bytes, 2, 11);
    put(bytes, 2, 2);
    put(bytes, 1, area);
    put(bytes, 4, x);
    put(bytes, 4, y);
}

#[cfg(test)]
mod tests {
    use super::*;
    use crate::differential::fields::Layout;
    use crate::differential::trips::start;
    use crate::model::read_file;

    #[test]
    fn every_one_is_faultless() {
        let mut random = Random::of(1, 0);
        for _ in 0..2_000 {
            let now = start(&mut random);
            let bytes = file(&mut random, now);
            let read = read_file(&bytes).expect("a faultless file");
            assert_eq!(Some(bytes.len()), Layout::all_of(&read).last().map(Layout::end));
        }
    }
}
