//! Trips over the two nights of a year in which the clock is put on and back, on the sample tariff.

use super::recorder::{told_from, RECORDED};
use crate::differential::books::fresh;
use crate::differential::random::Random;
use crate::differential::trips::{plan, Plan, DAY, HOUR};
use crate::model::clock::Date;
use crate::model::read_file;
use crate::model::statement::LARGEST_STATEMENT;

const TARIFF: &[u8] = include_bytes!("../../../samples/tariff.bin");
const TRIPS: u64 = 4;

/// Some nights of either sort, one year after another.
pub fn ride() {
    for year in 2024..2034 {
        told_from(&format!("the night in March {year} in which the clock is put on"));
        night(year, change(year, 3), [1, 2]);
        told_from(&format!("the night in October {year} in which the clock is put back"));
        night(year + 100, change(year, 10), [2, 1]);
    }
}

/// The clock changes on the month's last Sunday at 01:00 UTC. Minute 0 is of a Saturday.
fn change(year: u64, month: u64) -> u64 {
    let last = Date { year, month, day: 31 }.first_minute().expect("both months have 31 days");
    let sunday = last - (last / DAY + 6) % 7 * DAY;
    sunday + HOUR
}

/// Trips one after another around the change, each quoted, settled, and posted on the book before. The first is ridden over it.
fn night(seed: u64, change: u64, [before, behind]: [u64; 2]) {
    let mut random = Random::of(seed, 0);
    let file = read_file(TARIFF).expect("the sample has no faults");
    let mut book = fresh();
    let mut now = change - random.within(1, 55);
    for _ in 0..TRIPS {
        let drawn = plan(&mut random, file.tariff(1), &fresh(), now);
        let (check_in, check_out) = (now, now + random.within(3, 80));
        let offset = |minute| if minute < change { before } else { behind };
        let offsets = [offset(check_in), offset(check_out)];
        let trip = Plan { check_in, check_out, offsets, ..drawn }.bytes();
        let mut statement = vec![0; LARGEST_STATEMENT];
        (RECORDED.quote)(TARIFF, &book, &trip, &mut statement);
        let mut posted = book.clone();
        let mut settled = vec![0; LARGEST_STATEMENT];
        let answer = (RECORDED.settle)(TARIFF, &mut book, &trip, &mut settled);
        let written = usize::try_from(answer).unwrap_or(0).min(LARGEST_STATEMENT);
        (RECORDED.post)(TARIFF, &mut posted, &trip, &settled[..written]);
        now = check_out + random.within(0, 20);
    }
}

#[cfg(test)]
mod tests {
    use super::*;
    use crate::differential::trips::local_stamp;

    #[test]
    fn the_clock_changes_on_the_last_sunday() {
        // docs/FORMAT.md names these two nights.
        assert_eq!(local_stamp(change(2026, 3), 1)[..5], [0xea, 0x07, 3, 29, 1]);
        assert_eq!(local_stamp(change(2026, 10), 1)[..5], [0xea, 0x07, 10, 25, 1]);
    }
}
