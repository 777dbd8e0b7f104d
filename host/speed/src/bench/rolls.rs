//! Rolls for the program: the same trips on each tariff, but for their stops.

use super::inputs::{Network, Reach, SEED, SUMMER_TIME};
use milecopper_host::differential::random::Random;
use milecopper_host::differential::trips::Plan;

/// As many records as the program settles.
pub const RECORDS: usize = 65_535;

/// 2026-05-04 07:00 UTC.
const START: u64 = 13_853_220;

/// A roll of so many records; a shorter one is the start of a longer one. Nearly all are accepted, some eight in each
/// window. One in ten is broken.
pub fn roll(network: &Network, records: usize) -> Vec<u8> {
    // Two sources, so that what a trip's stops need does not change the trips.
    let trips = &mut Random::of(SEED, 4_000);
    let stops = &mut Random::of(SEED, 4_001);
    let mut now = START;
    let mut bytes = Vec::new();
    for _ in 0..records {
        let plan = next(trips, stops, network, now);
        let mut record = plan.bytes();
        if trips.chance(1) {
            spoil(trips, &mut record);
        } else {
            now = plan.check_out;
        }
        bytes.extend(record);
    }
    bytes
}

fn next(trips: &mut Random, stops: &mut Random, network: &Network, now: u64) -> Plan {
    let check_in = now + trips.within(0, 240);
    let check_out = check_in + trips.within(4, 90);
    let class = trips.pick(&[1, 2, 2, 2]);
    let level = trips.pick(&[0, 0, 0, 0, 0, 1, 2, 3, 4, 5]);
    let party = party(trips);
    let reach = match trips.below(20) {
        0..12 => Reach::City,
        12..17 => Reach::Region,
        _ => Reach::State,
    };
    let many = trips.pick(&[2, 2, 2, 2, 2, 2, 3, 4, 4, 6]);
    let stops = (network.stops)(stops, reach, many);
    Plan { check_in, check_out, offsets: SUMMER_TIME, class, level, party, stops }
}

/// Mostly alone; else with a bicycle, with a few others, or with as many as there may be.
fn party(trips: &mut Random) -> [u64; 3] {
    match trips.below(100) {
        0..60 => [0, 0, 0],
        60..75 => [0, 0, 1],
        75..99 => [0; 3].map(|_| trips.within(0, 3)),
        _ => [10, 10, 10],
    }
}

/// Makes the record one that is refused: another kind, no such class, no such stop, no such minute.
fn spoil(trips: &mut Random, record: &mut [u8]) {
    let (place, value) = trips.pick(&[(2, 9), (18, 3), (25, 255), (9, 60)]);
    record[place] = value;
}

#[cfg(test)]
mod tests {
    use super::super::inputs::{largest, longest, smallest, three_areas};
    use super::*;
    use milecopper_host::model::settle_roll;

    #[test]
    fn nearly_all_are_accepted_several_in_a_window_as_many_broken_under_each_tariff() {
        for network in [largest(), longest(), three_areas(), smallest()] {
            let text = settle_roll(&network.tariff, &roll(&network, 1_000));
            let refused = text.lines().filter(|line| line.contains(" refused ")).count() - 1;
            let broken = text.lines().count() - 1_002;
            assert!((1..30).contains(&refused), "{refused} refused under the {} tariff", network.name);
            assert!((80..120).contains(&broken), "{broken} broken under the {} tariff", network.name);
            let mut openings: Vec<&str> = text.lines().filter_map(|line| line.split(' ').nth(4)).collect();
            openings.dedup();
            assert!((100..200).contains(&openings.len()), "{} windows", openings.len());
        }
    }

    #[test]
    fn a_shorter_roll_is_the_start_of_a_longer_one() {
        let network = three_areas();
        let (short, long) = (roll(&network, 10), roll(&network, 20));
        assert_eq!(short, long[..short.len()]);
    }
}
