//! The calls that are measured.

use super::inputs::{grown, largest, longest, sample, three_areas, two_editions, Network, Reach, SEED, SUMMER_TIME};
use milecopper_host::differential::books::{fresh, set_word, BICYCLES, TRIPS};
use milecopper_host::differential::random::Random;
use milecopper_host::differential::trips::Plan;
use milecopper_host::model;
use milecopper_host::model::statement::LARGEST_STATEMENT;

/// In which table a case stands.
#[derive(Clone, Copy, Debug, PartialEq, Eq)]
pub enum Group {
    /// A trip that is accepted.
    Settled,
    /// Tariff, book and trip are read through, and nothing is written.
    Checked,
    /// A tariff is checked alone.
    Tariff,
    /// A refusal, of which only the instructions are counted.
    Refused,
    /// How the cost grows with areas, stops and the party.
    Areas,
    Stops,
    Party,
}

/// One call: what is given to each side, and what it is for.
#[derive(Clone)]
pub struct Case {
    pub group: Group,
    pub name: String,
    /// So many areas, stops or persons, where the cost grows with them.
    pub size: usize,
    pub tariff: Vec<u8>,
    pub book: Vec<u8>,
    pub trip: Vec<u8>,
    /// Bytes of the statement.
    pub room: usize,
    /// The number of the refusal that is due; 0 where the trip is to be accepted.
    pub refusal: u64,
    /// What the library's ratio to the tuned side is to be at most, if something was aimed at.
    pub aim: Option<f64>,
}

/// The aims: on the largest tariffs, and on the sample with a fresh book; with a used book and a party of 31.
const AIM: f64 = 1.05;
const AIM_USED: f64 = 1.15;

/// The charge record of a party of 31.
const LARGEST_RECORD: usize = 266;

/// The opening of the used books' window: 2026-05-04 07:00 UTC.
const OPENING: u64 = 13_853_220;
/// In that window, and after it.
const LATER: u64 = OPENING + 600;
const NEXT_WINDOW: u64 = OPENING + 2_000;

/// Two stops of a town with a mark, of the sample.
const MARKED_TOWN: [usize; 2] = [31, 32];

const ALONE: [u64; 3] = [0, 0, 0];
/// 31 with the account holder.
const FULL: [u64; 3] = [10, 10, 10];

/// All cases, always in the same order.
pub fn all() -> Vec<Case> {
    let networks = [largest(), longest(), two_editions(), sample()];
    let mut cases: Vec<Case> = networks.iter().flat_map(settled).collect();
    cases.extend(networks.iter().flat_map(checked));
    cases.extend(networks.iter().chain([&three_areas()]).map(checked_alone));
    cases.extend(refused(&networks[0]));
    cases.push(first_class_in_a_marked_town());
    cases.extend([1, 8, 16, 32].map(|areas| Case { size: areas, ..growing(Group::Areas, grown(areas, 2)) }));
    cases.extend([2, 250, 500, 1_000].map(|stops| Case { size: stops, ..growing(Group::Stops, grown(32, stops)) }));
    cases.extend(parties(&networks[0]));
    cases
}

/// The cases as x86_64/calls.c has them.
pub fn in_c(cases: &[Case]) -> String {
    let array = |name: &str, at: usize, bytes: &[u8]| {
        let bytes: Vec<String> = bytes.iter().chain([&0]).map(u8::to_string).collect();
        format!("static const byte {name}_{at}[] = {{{}}};\n", bytes.join(","))
    };
    let (mut arrays, mut calls) = (String::new(), String::new());
    for (at, Case { group, tariff, book, trip, room, .. }) in cases.iter().enumerate() {
        arrays += &(array("tariff", at, tariff) + &array("book", at, book) + &array("trip", at, trip));
        calls += &format!(
            "{{tariff_{at}, book_{at}, trip_{at}, {}, {}, {}, {room}, {}}},\n",
            tariff.len(),
            book.len(),
            trip.len(),
            u8::from(*group == Group::Tariff)
        );
    }
    format!("{arrays}static const struct call calls[] = {{\n{calls}}};\n")
}

/// A trip of 25 minutes from one stop to another.
fn plan(network: &Network, reach: Reach, check_in: u64, party: [u64; 3]) -> Plan {
    let (check_out, stops) = (check_in + 25, stops(network, reach, 2));
    Plan { check_in, check_out, offsets: SUMMER_TIME, class: 2, level: 3, party, stops }
}

fn stops(network: &Network, reach: Reach, many: usize) -> Vec<usize> {
    (network.stops)(&mut Random::of(SEED, 3_000), reach, many)
}

/// A book after four trips of a party of 31 in the open window.
fn used(network: &Network) -> Vec<u8> {
    let mut book = fresh();
    for (number, reach) in (0..).zip([Reach::City, Reach::Region, Reach::State, Reach::City]) {
        let trip = Plan { class: 1 + number % 2, ..plan(network, reach, OPENING + 60 * number, FULL) };
        let answer = model::settle(&network.tariff, &mut book, &trip.bytes(), &mut [0; LARGEST_STATEMENT]);
        answer.expect("an earlier trip is accepted");
    }
    book
}

fn case(group: Group, name: String, network: &Network, book: &[u8], plan: &Plan) -> Case {
    let (tariff, book, trip) = (network.tariff.clone(), book.to_vec(), plan.bytes());
    Case { group, name, size: 0, tariff, book, trip, room: LARGEST_STATEMENT, refusal: 0, aim: None }
}

fn settled(network: &Network) -> Vec<Case> {
    let near = if ["longest", "two editions"].contains(&network.name) { "in a region" } else { "in a city" };
    let ways = [
        ("fresh book", near, fresh(), LATER, Reach::City, 2),
        ("used book", near, used(network), LATER, Reach::City, 2),
        ("used book", "across regions", used(network), LATER, Reach::State, 2),
        ("used book", "across regions and back", used(network), LATER, Reach::State, 3),
        ("next window", near, used(network), NEXT_WINDOW, Reach::City, 2),
    ];
    let mut cases = Vec::new();
    for (state, where_to, book, check_in, reach, many) in ways {
        for party in [ALONE, FULL] {
            let riders = 1 + party.iter().sum::<u64>();
            let name = format!("{}, {state}, {where_to}, party of {riders}", network.name);
            let plan = Plan { stops: stops(network, reach, many), ..plan(network, reach, check_in, party) };
            let aim = match (state, party) {
                ("fresh book", _) => Some(AIM),
                (_, FULL) => Some(AIM_USED),
                _ => (network.name != "sample").then_some(AIM),
            };
            cases.push(Case { aim, ..case(Group::Settled, name, network, &book, &plan) });
        }
    }
    cases
}

/// Nothing but the tariff is looked at.
fn checked_alone(network: &Network) -> Case {
    case(Group::Tariff, network.name.to_string(), network, &[], &plan(network, Reach::City, LATER, ALONE))
}

fn checked(network: &Network) -> Vec<Case> {
    let mut cases = Vec::new();
    for (state, book) in [("fresh book", fresh()), ("used book", used(network))] {
        for (refusal, spoil) in [(5, trip_too_long as Spoil), (12, no_room)] {
            let name = format!("{}, {state}, refused by {refusal}", network.name);
            let mut case = case(Group::Checked, name, network, &book, &plan(network, Reach::City, LATER, FULL));
            spoil(&mut case);
            cases.push(Case { refusal, ..case });
        }
    }
    cases
}

/// A change that makes a good case one of a refusal.
type Spoil = fn(&mut Case);

/// Each refusal, with its fault as late in the bytes as it can stand.
fn refused(network: &Network) -> Vec<Case> {
    let spoils: [(u64, &str, Spoil); 14] = [
        (1, "the last record cut", |case| case.tariff.truncate(case.tariff.len() - 1)),
        (2, "the last record of another kind", |case| set_from_end(&mut case.tariff, 11, 9)),
        (3, "the last stop in no area", |case| set_from_end(&mut case.tariff, 9, 32)),
        (4, "the last bicycle in no area", |case| set_word(&mut case.book, BICYCLES + 9, 33)),
        (5, "a byte behind the record", trip_too_long),
        (6, "11 bicycles", |case| case.trip[22] = 11),
        (8, "check-out at minute 60", |case| case.trip[16] = 60),
        (9, "check-out before check-in", |case| case.trip[15] -= 1),
        (17, "tapped in and out at one stop", mistap),
        (10, "check-in before the last check-out", |case| case.trip[8] = 8),
        (22, "the first edition a year later", |case| {
            case.tariff[4..6].copy_from_slice(&[0xeb, 7]);
            case.book = fresh();
        }),
        (7, "the last stop unknown", |case| set_from_end(&mut case.trip, 1, 255)),
        (11, "a window of 256 trips", |case| set_word(&mut case.book, TRIPS, 256)),
        (12, "a statement too short", no_room),
    ];
    let book = used(network);
    let good = plan(network, Reach::City, LATER, FULL);
    let mut cases = Vec::new();
    for (refusal, fault, spoil) in spoils {
        let mut case = case(Group::Refused, format!("{refusal}: {fault}"), network, &book, &good);
        spoil(&mut case);
        cases.push(Case { refusal, ..case });
    }
    cases
}

/// The second row of 6: between two stops of town 8 of the sample, which has a mark, in class 1.
fn first_class_in_a_marked_town() -> Case {
    let network = sample();
    let plan = Plan { class: 1, stops: MARKED_TOWN.to_vec(), ..plan(&network, Reach::City, LATER, FULL) };
    let name = "6: first class in a marked town of the sample".to_string();
    Case { refusal: 6, ..case(Group::Refused, name, &network, &used(&network), &plan) }
}

/// Sets the byte that stands so many bytes before the end.
fn set_from_end(bytes: &mut [u8], before_end: usize, value: u8) {
    let place = bytes.len() - before_end;
    bytes[place] = value;
}

/// The last stop is the first, and the check-out the check-in.
fn mistap(case: &mut Case) {
    case.trip.copy_within(24..26, 26);
    case.trip.copy_within(4..11, 11);
}

fn trip_too_long(case: &mut Case) {
    case.trip.push(0);
}

/// For a trip of a party of 31 that is not broken.
fn no_room(case: &mut Case) {
    case.room = LARGEST_RECORD - 1;
}

/// The same trip of one person on a fresh book, from stop 0 to stop 1.
fn growing(group: Group, tariff: Vec<u8>) -> Case {
    let network = Network { name: "grown", tariff, stops: |_, _, _| vec![0, 1] };
    case(group, String::new(), &network, &fresh(), &plan(&network, Reach::State, LATER, ALONE))
}

/// The account holder, then ten adults, ten children and ten bicycles more.
fn parties(network: &Network) -> [Case; 4] {
    let book = used(network);
    [[0, 0, 0], [10, 0, 0], [10, 10, 0], [10, 10, 10]].map(|party| {
        let plan = plan(network, Reach::City, LATER, party);
        let size = 1 + party.iter().sum::<u64>() as usize;
        Case { size, ..case(Group::Party, String::new(), network, &book, &plan) }
    })
}

#[cfg(test)]
mod tests {
    use super::*;
    use milecopper_host::model::statement::ChargeRecord;

    #[test]
    fn each_is_answered_as_it_is_meant() {
        for Case { group, name, size, tariff, mut book, trip, room, refusal, .. } in all() {
            if group == Group::Tariff {
                assert_eq!(model::check_tariff(&tariff), Ok(tariff.len()), "{name}");
                continue;
            }
            let mut statement = vec![0; room];
            match model::settle(&tariff, &mut book, &trip, &mut statement) {
                Ok(written) => {
                    let records = ChargeRecord::read_all(&statement[..written]).expect("charge records");
                    assert_eq!(refusal, 0, "{name}");
                    assert_eq!(records.len(), if name.contains("and back") { 2 } else { 1 }, "{name}");
                    assert!(records.iter().all(|record| record.km > 0), "{group:?} {name} {size} goes nowhere");
                }
                Err(found) => assert_eq!(u64::from(found.number), refusal, "{name}"),
            }
        }
    }

    #[test]
    fn a_used_book_has_sums_of_all() {
        for network in [largest(), longest(), two_editions(), sample()] {
            let book = model::book::Book::read(&used(&network)).expect("a book");
            assert_eq!(book.trips(), 4);
            assert!((0..21).all(|rider| book.all_classes_sum(rider, 0) > 0));
            assert!((0..10).all(|bicycle| book.covering_area(bicycle) == Some(0)));
        }
    }
}
