//! The tariffs to measure on, and a way to choose a trip's stops on each.

use milecopper_host::differential::random::Random;
use milecopper_host::maker::bytes_of;

/// What everything that looks random here comes from.
pub const SEED: u64 = 2_026;

/// The offset of both stamps of a trip.
pub const SUMMER_TIME: [u64; 2] = [2, 2];

/// How far a trip goes: its stops lie in one city, in one region, or in more than one.
#[derive(Clone, Copy, Debug, PartialEq, Eq)]
pub enum Reach {
    City,
    Region,
    State,
}

/// A tariff, and how to choose so many stops, two or more, for a trip that goes so far. It goes to and fro between two
/// stops: with an odd number of them it ends where it started and is broken, with an even one it is not.
pub struct Network {
    pub name: &'static str,
    pub tariff: Vec<u8>,
    pub stops: fn(&mut Random, Reach, usize) -> Vec<usize>,
}

/// 32 areas of kind 1, 1,000 stops.
pub fn largest() -> Network {
    Network {
        name: "largest",
        tariff: made_edition(&(areas(MOST_AREAS) + &spread_stops(MOST_STOPS))),
        stops: largest_stops,
    }
}

/// The longest in bytes: the state, 31 regions of kind 8, 1,000 stops. There is no city, and a trip that would lie in one
/// lies in a region.
pub fn longest() -> Network {
    let areas = area_line(0) + &(1..MOST_AREAS).map(aachen_line).collect::<String>() + &factors(MOST_AREAS);
    Network { name: "longest", tariff: made_edition(&(areas + &spread_stops(MOST_STOPS))), stops: longest_stops }
}

/// Two editions, each as the longest. Trips are of the second.
pub fn two_editions() -> Network {
    let longest = longest();
    let second = made("edition 2001-01-01");
    let tariff = [&longest.tariff[..], &second, &longest.tariff[second.len()..]].concat();
    Network { name: "two editions", tariff, ..longest }
}

/// samples/tariff.bin: 10 areas of both kinds, 35 stops. Trips are those of its first areas.
pub fn sample() -> Network {
    Network { name: "sample", tariff: include_bytes!("../../../../samples/tariff.bin").to_vec(), stops: sample_stops }
}

/// State, region and city, and what a trip needs to go as far as any on the largest tariff.
pub fn three_areas() -> Network {
    let stops = "stop 2 300000 200000\nstop 2 308000 206000\nstop 1 350000 240000\nstop 0 600000 500000\n";
    let tariff = area_line(0) + &area_line(1) + &city_line(2, 1) + &factors(2) + stops;
    Network { name: "three areas", tariff: made_edition(&tariff), stops: three_areas_stops }
}

/// The state alone, with one stop.
pub fn smallest() -> Network {
    Network { name: "smallest", tariff: made_edition(&(areas(1) + "stop 0 500000 500000\n")), stops: smallest_stops }
}

/// A tariff of so many areas and stops whose first two stops are always the same: 5 km apart, in the state.
pub fn grown(areas_due: usize, stops_due: usize) -> Vec<u8> {
    let first = "stop 0 500000 500000\nstop 0 503000 504000\n";
    made_edition(&(areas(areas_due) + first + &spread_stops(stops_due - 2)))
}

const MOST_AREAS: usize = 32;
const MOST_STOPS: usize = 1_000;
/// Areas 1 to 4; the areas behind them are their cities.
const REGIONS: usize = 4;

/// One edition of these lines.
fn made_edition(text: &str) -> Vec<u8> {
    made(&format!("edition 2000-01-01\n{text}"))
}

fn made(text: &str) -> Vec<u8> {
    bytes_of(text).unwrap_or_else(|fault| panic!("{fault} in\n{text}"))
}

/// So many areas, and the factor records of the state and the regions among them.
fn areas(many: usize) -> String {
    (0..many).map(area_line).collect::<String>() + &factors(many.min(1 + REGIONS))
}

/// No mark keeps a trip inside a city whole, so that as many are broken under each tariff.
fn factors(many: usize) -> String {
    "factor 3 mark 0\n".repeat(many)
}

/// The region of a city of the largest tariff.
fn region_of(city: usize) -> usize {
    1 + city % REGIONS
}

fn area_line(area: usize) -> String {
    let random = &mut Random::of(SEED, area as u64);
    let (base, km, valid) = (random.within(130, 190), random.within(24, 32), random.pick(&[240, 360]));
    match area {
        0 => format!("area state parent 0 base {base} km {km} valid {valid} {} day 3000 bike 500\n", shares(random, 0)),
        1..=REGIONS => {
            let (day, bike) = (random.within(2_400, 2_900), random.within(350, 450));
            let shares = shares(random, area);
            format!("area region parent 0 base {base} km {km} valid {valid} {shares} day {day} bike {bike}\n")
        }
        _ => city_line(area, region_of(area)),
    }
}

/// Each eighth city has no day cap.
fn city_line(area: usize, region: usize) -> String {
    let random = &mut Random::of(SEED, area as u64);
    let (base, km, bike) = (random.within(120, 170), random.within(22, 30), random.within(200, 300));
    let day = if area % 8 == 7 { "none".to_string() } else { random.within(400, 900).to_string() };
    let shares = shares(random, area);
    format!("area city parent {region} base {base} km {km} valid 90 {shares} day {day} bike {bike}\n")
}

/// A region of kind 8, with tickets of its own sort of trip cap.
fn aachen_line(area: usize) -> String {
    let random = &mut Random::of(SEED, area as u64);
    let (base, km, valid) = (random.within(130, 190), random.within(24, 32), random.pick(&[240, 360]));
    let (day, bike) = (random.within(2_400, 2_900), random.within(350, 450));
    let tickets = ["none", "levels 100 170 370 620 840", "flat 110"][area % 3];
    let shares = shares(random, area);
    format!(
        "aachen region parent 0 base {base} km {km} valid {valid} {shares} day {day} bike {bike} \
         tickets {tickets} trip 150 town none\n"
    )
}

/// The percentages and the trip cap, of which all three sorts come in turn.
fn shares(random: &mut Random, area: usize) -> String {
    let (first, child) = (random.pick(&[50, 60]), random.pick(&[40, 50]));
    let cap = match area % 3 {
        0 => "none".to_string(),
        1 => format!("levels {} 340 740 1250 1690", random.within(190, 230)),
        _ => format!("flat {} 90", random.within(200, 240)),
    };
    format!("first {first} child {child} cap {cap}")
}

/// Stops for all areas in turn, so that stop s lies in area s % 32; each near the middle of its area.
fn spread_stops(many: usize) -> String {
    let random = &mut Random::of(SEED, 1_000);
    let line = |stop: usize| {
        let area = stop % MOST_AREAS;
        let ([x, y], spread) = (middle_of(area), spread_of(area));
        let [x, y] = [x, y].map(|middle| middle - spread + random.within(0, 2 * spread));
        format!("stop {area} {x} {y}\n")
    };
    (0..many).map(line).collect()
}

/// How far a stop lies from the middle of its area at most, in metres each way.
fn spread_of(area: usize) -> u64 {
    match area {
        0 => 490_000,
        1..=REGIONS => 80_000,
        _ => 10_000,
    }
}

/// Each region has a quarter of the plane.
fn middle_of(area: usize) -> [u64; 2] {
    match area {
        0 => [500_000, 500_000],
        1..=REGIONS => [250_000 + 500_000 * (area as u64 % 2), 250_000 + 500_000 * (area as u64 / 2 % 2)],
        _ => {
            let random = &mut Random::of(SEED, 2_000 + area as u64);
            middle_of(region_of(area)).map(|middle| middle - 70_000 + random.within(0, 140_000))
        }
    }
}

/// A stop of this area of the largest tariff.
fn stop_in(random: &mut Random, area: usize) -> usize {
    area + MOST_AREAS * random.index(MOST_STOPS / MOST_AREAS)
}

fn largest_stops(random: &mut Random, reach: Reach, many: usize) -> Vec<usize> {
    let city = 1 + REGIONS + random.index(MOST_AREAS - 1 - REGIONS);
    let region = region_of(city);
    let other = 1 + region % REGIONS;
    let second = match reach {
        Reach::City => city,
        Reach::Region => region,
        Reach::State => other,
    };
    let ends = [city, second].map(|area| stop_in(random, area));
    to_and_fro(ends, many)
}

/// In one region, or in two.
fn longest_stops(random: &mut Random, reach: Reach, many: usize) -> Vec<usize> {
    let region = 1 + random.index(MOST_AREAS - 1);
    let other = if reach == Reach::State { 1 + region % (MOST_AREAS - 1) } else { region };
    let first = stop_in(random, region);
    let mut second = stop_in(random, other);
    if second == first {
        second = (second + MOST_AREAS) % (MOST_AREAS * (MOST_STOPS / MOST_AREAS));
    }
    to_and_fro([first, second], many)
}

fn sample_stops(random: &mut Random, reach: Reach, many: usize) -> Vec<usize> {
    let first = random.index(7);
    let second = match reach {
        Reach::City => (first + 1) % 7,
        Reach::Region => 7 + random.index(7),
        Reach::State => 14 + random.index(13),
    };
    to_and_fro([first, second], many)
}

fn three_areas_stops(random: &mut Random, reach: Reach, many: usize) -> Vec<usize> {
    let first = random.index(2);
    let second = match reach {
        Reach::City => 1 - first,
        Reach::Region => 2,
        Reach::State => 3,
    };
    to_and_fro([first, second], many)
}

/// Where all stops are one, every change breaks a trip: one that is not to be broken has none.
fn smallest_stops(_: &mut Random, _: Reach, many: usize) -> Vec<usize> {
    vec![0; if many % 2 == 0 { 2 } else { many }]
}

fn to_and_fro(ends: [usize; 2], many: usize) -> Vec<usize> {
    (0..many).map(|place| ends[place % 2]).collect()
}

#[cfg(test)]
mod tests {
    use super::*;
    use milecopper_host::model::read_file;
    use milecopper_host::model::tariff::{Level, Tariff, TripCap};

    /// That of the last edition.
    fn read_tariff(bytes: &[u8]) -> Tariff {
        read_file(bytes).expect("a faultless tariff").editions.pop().expect("an edition").tariff
    }

    #[test]
    fn tariffs_are_faultless_and_as_large_as_they_are_called() {
        for (network, areas, stops) in [
            (largest(), 32, 1_000),
            (longest(), 32, 1_000),
            (two_editions(), 32, 1_000),
            (sample(), 10, 35),
            (three_areas(), 3, 4),
            (smallest(), 1, 1),
        ] {
            let tariff = read_tariff(&network.tariff);
            assert_eq!((tariff.areas.len(), tariff.stops.len()), (areas, stops), "{}", network.name);
        }
        for (areas, stops) in [(1, 2), (8, 2), (16, 2), (32, 2), (32, 250), (32, 1_000)] {
            let tariff = read_tariff(&grown(areas, stops));
            assert_eq!((tariff.areas.len(), tariff.stops.len()), (areas, stops));
        }
    }

    #[test]
    fn the_largest_tariff_is_varied() {
        let tariff = read_tariff(&largest().tariff);
        assert_eq!(tariff.areas.iter().filter(|area| area.level == Level::City).count(), 27);
        assert!(tariff.areas.iter().any(|area| area.trip_cap == TripCap::None));
        assert!(tariff.areas.iter().any(|area| matches!(area.trip_cap, TripCap::Flat { .. })));
        assert!(tariff.areas.iter().any(|area| matches!(area.trip_cap, TripCap::ByLevel { .. })));
        assert!(tariff.areas.iter().any(|area| area.day_cap.is_none()));
        assert!((0..32).all(|area| tariff.stops.iter().any(|stop| stop.area == area)));
        assert!(tariff.areas.iter().all(|area| !area.is_aachen()));
    }

    #[test]
    fn the_longest_tariff_has_as_many_bytes_as_there_may_be() {
        let network = longest();
        let tariff = read_tariff(&network.tariff);
        assert_eq!(network.tariff.len(), 14_531);
        assert_eq!(two_editions().tariff.len(), 29_062);
        assert!(tariff.areas[1..].iter().all(|area| area.is_aachen() && area.level == Level::Region));
    }

    #[test]
    fn trips_go_as_far_as_asked() {
        let random = &mut Random::of(SEED, 0);
        for network in [largest(), longest(), two_editions(), sample(), three_areas()] {
            let tariff = read_tariff(&network.tariff);
            let city = if ["longest", "two editions"].contains(&network.name) { Level::Region } else { Level::City };
            for (reach, level) in [(Reach::City, city), (Reach::Region, Level::Region), (Reach::State, Level::State)] {
                for many in 2..50 {
                    let stops = (network.stops)(random, reach, many);
                    let areas: Vec<usize> = stops.iter().map(|&stop| tariff.stops[stop].area).collect();
                    assert_eq!(stops.len(), many);
                    assert_eq!(tariff.areas[tariff.smallest_containing(&areas)].level, level, "{}", network.name);
                }
            }
        }
    }
}
