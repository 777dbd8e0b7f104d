//! Rolls under a tariff, most of whose trips are accepted.

use crate::differential::books::fresh;
use crate::differential::random::Random;
use crate::differential::tariffs::{edition, file, ordinary_tariff};
use crate::differential::trips::{plan_in, start, Plan, DAY};
use crate::model::statement::LARGEST_STATEMENT;
use crate::model::{read_file, settle, File};

const SAMPLE: &[u8] = include_bytes!("../../../../samples/tariff.bin");

/// A roll's records, and the bytes behind them.
#[derive(Clone)]
pub struct Rolled {
    pub tariff: Vec<u8>,
    pub file: File,
    pub offered: Vec<Offered>,
    pub tail: Vec<u8>,
}

/// A record, the plan that it was made of or might have been, and the book that it finds.
#[derive(Clone)]
pub struct Offered {
    pub record: Vec<u8>,
    pub plan: Plan,
    pub book: Vec<u8>,
}

impl Rolled {
    /// None to some records, mostly trips; a few are of another kind, or are refused. At times a torn record ends it.
    pub fn make(random: &mut Random) -> Rolled {
        let now = start(random);
        let mut rolled = Rolled::under(file(random, now));
        for _ in 0..random.pick(&[0, 1, 2, 2, 3, 3, 5, 5, 8, 12]) {
            let book = rolled.book();
            let (plan, _) = plan_in(random, &rolled.file, &book, now);
            let record = match random.below(20) {
                0 => [5, 0, random.pick(&[0, 1, 3, 9]), 0, 1, 2, 3].to_vec(),
                1 => rolled.offered.first().map_or(plan.bytes(), |first| first.record.clone()),
                2 => Plan { class: 3, ..plan.clone() }.bytes(),
                _ => plan.bytes(),
            };
            rolled.offered.push(Offered { record, plan, book });
        }
        rolled.tail = tail(random, &rolled);
        rolled
    }

    fn under(tariff: Vec<u8>) -> Rolled {
        let file = read_file(&tariff).expect("the makers of files make no faults");
        Rolled { tariff, file, offered: Vec::new(), tail: Vec::new() }
    }

    /// With these trips.
    fn of(tariff: Vec<u8>, plans: Vec<Plan>) -> Rolled {
        let mut rolled = Rolled::under(tariff);
        for plan in plans {
            let book = rolled.book();
            rolled.offered.push(Offered { record: plan.bytes(), plan, book });
        }
        rolled
    }

    pub fn bytes(&self) -> Vec<u8> {
        let mut bytes: Vec<u8> = self.offered.iter().flat_map(|offered| offered.record.clone()).collect();
        bytes.extend(&self.tail);
        bytes
    }

    /// The book that the last record leaves.
    fn book(&self) -> Vec<u8> {
        let Some(Offered { record, book, .. }) = self.offered.last() else { return fresh() };
        let mut book = book.clone();
        // a refusal leaves the book
        let _ = settle(&self.tariff, &mut book, record, &mut [0; LARGEST_STATEMENT]);
        book
    }
}

/// Mostly none; else a frame that is broken: too short, with an impossible length, or cut.
fn tail(random: &mut Random, rolled: &Rolled) -> Vec<u8> {
    let cut = rolled.offered.last().map_or(vec![7], |last| last.record[..last.record.len() - 1].to_vec());
    match random.below(12) {
        0 => vec![0],
        1 => vec![30, 0, 7],
        2 => vec![1, 0, 7, 0, 0, 0, 0],
        3 => vec![1, 4, 7, 0, 0],
        4 => cut,
        _ => Vec::new(),
    }
}

/// A trip between the first two stops.
fn between(check_in: u64, minutes: u64, party: [u64; 3]) -> Plan {
    Plan { check_in, check_out: check_in + minutes, offsets: [1, 1], class: 2, level: 0, party, stops: vec![0, 1] }
}

/// Two trips of one window, one of the next, and one that is refused, all under the sample's tariff.
pub fn by_the_sample() -> Rolled {
    let start = 14_000_000;
    let plans = vec![
        between(start, 30, [1, 1, 1]),
        between(start + 100, 30, [0, 2, 1]),
        between(start + DAY, 30, [2, 0, 0]),
        between(start + DAY - 50, 30, [0, 0, 0]),
    ];
    Rolled::of(SAMPLE.to_vec(), plans)
}

/// A window is opened an hour before the second edition, and the second trip lies behind it.
pub fn over_two_editions(random: &mut Random) -> Rolled {
    let days = 9_700;
    let tariff = [(0, 8), (days, 9)].map(|(days, stops)| edition(days, &ordinary_tariff(random, 4, stops))).concat();
    let start = DAY * days - 60;
    let plans = vec![
        between(start, 20, [1, 1, 1]),
        between(start + 120, 20, [1, 0, 1]),
        between(start + DAY + 30, 20, [0, 1, 0]),
    ];
    Rolled::of(tariff, plans)
}

/// As many as may ride, and a bicycle less.
pub fn of_many(random: &mut Random) -> Rolled {
    let tariff = edition(0, &ordinary_tariff(random, 4, 8));
    Rolled::of(tariff, vec![between(20_000_000, 50, [10, 10, 10]), between(20_000_060, 50, [10, 10, 9])])
}
