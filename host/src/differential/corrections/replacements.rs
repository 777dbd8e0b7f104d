//! What takes a record's place.

use super::rolls::{Offered, Rolled};
use crate::differential::random::Random;
use crate::differential::trips::{plan_in, Plan, DAY, HOUR};

/// By how many minutes a trip is moved.
pub const SHIFTS: [i64; 10] = [
    -1,
    1,
    -(HOUR as i64),
    HOUR as i64,
    3 * HOUR as i64,
    -(DAY as i64),
    DAY as i64 - 1,
    DAY as i64,
    DAY as i64 + 1,
    30 * DAY as i64,
];

/// Later or earlier by so many minutes.
pub fn moved(plan: &Plan, minutes: i64) -> Plan {
    let by = |minute: u64| minute.saturating_add_signed(minutes);
    Plan { check_in: by(plan.check_in), check_out: by(plan.check_out), ..plan.clone() }
}

/// One for the record at this place, and what to call it; nothing where the roll has none.
pub fn of(random: &mut Random, rolled: &Rolled, place: usize) -> (&'static str, Vec<u8>) {
    let Some(Offered { record, plan, book }) = rolled.offered.get(place) else { return ("nothing", Vec::new()) };
    match random.below(16) {
        0 | 1 => ("itself", record.clone()),
        2 | 3 => ("nothing", Vec::new()),
        4 | 5 => {
            ("another party", Plan { party: [0; 3].map(|_| random.pick(&[0, 0, 1, 2, 9, 10])), ..plan.clone() }.bytes())
        }
        6 | 7 => ("another time", moved(plan, random.pick(&SHIFTS)).bytes()),
        8 => ("another duration", Plan { check_out: plan.check_out + random.below(300), ..plan.clone() }.bytes()),
        9 | 10 => ("another trip", plan_in(random, &rolled.file, book, plan.check_in).0.bytes()),
        11 => ("another record of the roll", rolled.offered[random.index(rolled.offered.len())].record.clone()),
        12 => (
            "more stops",
            Plan { stops: plan.stops.iter().cycle().take(32).copied().collect(), ..plan.clone() }.bytes(),
        ),
        13 => ("a record that is cut", record[..random.index(record.len())].to_vec()),
        14 => ("a record and more", [&record[..], &rolled.offered[0].record, &[7]].concat()),
        _ => ("bits that are others", flipped(random, record)),
    }
}

fn flipped(random: &mut Random, record: &[u8]) -> Vec<u8> {
    let mut bytes = record.to_vec();
    let place = random.index(bytes.len());
    bytes[place] ^= 1 << random.below(8);
    bytes
}
