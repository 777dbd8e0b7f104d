//! Trips that fit a tariff and a book, so that most of them are accepted.

use super::books::{word, EDITION, LAST_CHECK_OUT, OPENING, TRIPS};
use super::fields::{STAMP, TRIP_HEAD};
use super::random::Random;
use crate::model::book::Book;
use crate::model::charge::window_for;
use crate::model::fare::squared_distance;
use crate::model::parts::{parts_of, rides_in_a_marked_town};
use crate::model::record::KIND_TRIP;
use crate::model::tariff::{Tariff, TripCap};
use crate::model::File;
use crate::numbers::put;

pub const HOUR: u64 = 60;
pub const DAY: u64 = 1_440;
/// 2099-12-31 23:59 UTC. No stamp stands for its last hour: the local date would be one of 2100.
pub const LAST_MINUTE: u64 = 52_595_999;

/// What a trip record is made of. The minutes are of UTC, and may lie after 2099.
#[derive(Clone, Debug)]
pub struct Plan {
    pub check_in: u64,
    pub check_out: u64,
    /// With which offset each of the two is written.
    pub offsets: [u64; 2],
    pub class: u64,
    pub level: u64,
    /// Adults, children, bicycles.
    pub party: [u64; 3],
    pub stops: Vec<usize>,
}

impl Plan {
    pub fn bytes(&self) -> Vec<u8> {
        let mut bytes = Vec::with_capacity(TRIP_HEAD + 2 * self.stops.len());
        put(&mut bytes, 2, (TRIP_HEAD - 2 + 2 * self.stops.len()) as u64);
        put(&mut bytes, 2, KIND_TRIP);
        bytes.extend(stamp(self.check_in, self.offsets[0]));
        bytes.extend(stamp(self.check_out, self.offsets[1]));
        put(&mut bytes, 1, self.class);
        put(&mut bytes, 1, self.level);
        for carried in self.party {
            put(&mut bytes, 1, carried);
        }
        put(&mut bytes, 1, self.stops.len() as u64);
        for &stop in &self.stops {
            put(&mut bytes, 2, stop as u64);
        }
        bytes
    }

    /// The bytes of the charge record of one part.
    pub fn record_bytes(&self) -> usize {
        let [adults, children, bicycles] = self.party.map(|many| many as usize);
        26 + 10 * (adults + children) + 4 * bicycles
    }

    /// In how many parts the trip is charged; one where the tariff lacks a stop.
    pub fn parts(&self, tariff: &Tariff) -> usize {
        if self.is_known(tariff) {
            parts_of(tariff, &self.stops, 0).len()
        } else {
            1
        }
    }

    /// The number of the edition under which the trip is settled on this book; 1 where there is none.
    pub fn edition(&self, file: &File, book: &[u8]) -> usize {
        let book = Book::read(book).unwrap_or_else(Book::fresh);
        let window = window_for(book, file, self.check_in, self.check_out);
        let edition = window.map_or(1, |window| window.edition());
        edition.clamp(1, file.editions.len())
    }

    /// Whether the trip is refused in first class.
    pub fn is_in_a_marked_town(&self, tariff: &Tariff) -> bool {
        self.is_known(tariff) && rides_in_a_marked_town(tariff, &self.stops)
    }

    /// Whether the trip is refused where it is short.
    pub fn is_at_one_stop(&self) -> bool {
        self.stops.iter().all(|&stop| stop == self.stops[0])
    }

    fn is_known(&self, tariff: &Tariff) -> bool {
        self.stops.iter().all(|&stop| stop < tariff.stops.len())
    }
}

/// The stamp of a minute since 2000-01-01 00:00 UTC, with this offset.
pub fn stamp(minute: u64, offset: u64) -> [u8; STAMP] {
    local_stamp(minute + HOUR * offset, offset)
}

/// The stamp of a minute since 2000-01-01 00:00 by the local clock, with this offset beside it.
pub fn local_stamp(minute: u64, offset: u64) -> [u8; STAMP] {
    let (mut year, mut month, mut days) = (2000, 1, minute / DAY);
    while days >= days_in_year(year) {
        days -= days_in_year(year);
        year += 1;
    }
    while days >= days_in_month(year, month) {
        days -= days_in_month(year, month);
        month += 1;
    }
    let [low, high] = (year as u16).to_le_bytes();
    [low, high, month as u8, days as u8 + 1, (minute % DAY / HOUR) as u8, (minute % HOUR) as u8, offset as u8]
}

fn days_in_year(year: u64) -> u64 {
    if year.is_multiple_of(4) {
        366
    } else {
        365
    }
}

pub fn days_in_month(year: u64, month: u64) -> u64 {
    match month {
        2 => days_in_year(year) - 337,
        4 | 6 | 9 | 11 => 30,
        _ => 31,
    }
}

/// A minute at which to start a chain of trips: at times shortly before the end of a month, or at an end of the century.
pub fn start(random: &mut Random) -> u64 {
    match random.below(20) {
        0..2 => random.below(10),
        2 => random.below(2 * HOUR),
        3 => LAST_MINUTE - random.below(4 * DAY),
        4..9 => before_a_months_end(random, 400),
        _ => random.below(LAST_MINUTE),
    }
}

/// One of so many last minutes of some month.
pub fn before_a_months_end(random: &mut Random, minutes: u64) -> u64 {
    let months = random.below(1_200);
    let days: u64 = (0..=months).map(|month| days_in_month(2000 + month / 12, 1 + month % 12)).sum();
    days * DAY - 1 - random.below(minutes)
}

/// A trip that comes after the book's last one, and the number of the edition under which it is settled; `now` is the minute
/// where the book has no trip. Mostly its stops are of that edition, else of another. Before the first edition it is 1.
pub fn plan_in(random: &mut Random, file: &File, book: &[u8], now: u64) -> (Plan, usize) {
    let is_there = |&edition: &usize| (1..=file.editions.len()).contains(&edition);
    let of_the_book = Some(word(book, EDITION) as usize).filter(is_there);
    let mut guess = of_the_book.or(file.in_force(now)).unwrap_or(1);
    loop {
        let plan = plan(random, file.tariff(guess), book, now);
        let edition = plan.edition(file, book);
        if edition == guess || random.chance(15) {
            return (plan, edition);
        }
        // The other edition's stops fit as well at another time.
        guess = edition;
    }
}

/// A trip that comes after the book's last one; `now` is the minute where the book has none.
pub fn plan(random: &mut Random, tariff: &Tariff, book: &[u8], now: u64) -> Plan {
    let stops = stops(random, tariff);
    let areas: Vec<usize> = stops.iter().filter_map(|&stop| Some(tariff.stops.get(stop)?.area)).collect();
    let area = &tariff.areas[if areas.is_empty() { 0 } else { tariff.smallest_containing(&areas) }];
    let duration = match (random.below(20), &area.trip_cap) {
        (0..2, _) => {
            let periods = random.pick(&[1, 1, 2, 3]);
            near(random, area.base_validity * periods)
        }
        (2..4, &TripCap::Flat { minutes, .. }) => near(random, minutes),
        (4, _) => random.pick(&[0, 1, DAY - 1, DAY]),
        (5, _) => random.within(0, DAY),
        _ => random.within(0, 100),
    };
    let duration = duration.min(DAY);
    let check_in = check_in(random, book, now, duration);
    let mut plan = Plan {
        check_in,
        check_out: check_in + duration,
        offsets: offsets(random),
        class: random.pick(&[1, 2, 2]),
        level: random.pick(&[0, 0, 1, 2, 3, 4, 5]),
        party: party(random),
        stops,
    };
    if plan.is_in_a_marked_town(tariff) && random.chance(80) {
        plan.class = 2;
    }
    plan
}

/// Mostly one for both; at times the clock is put back or put on in between, whatever the season.
fn offsets(random: &mut Random) -> [u64; 2] {
    random.pick(&[[1, 1], [1, 1], [1, 1], [2, 2], [2, 2], [2, 2], [1, 2], [2, 1]])
}

/// After the last check-out: at once, soon, later, or so that the trip ends where the window does.
fn check_in(random: &mut Random, book: &[u8], now: u64, duration: u64) -> u64 {
    if word(book, TRIPS) == 0 {
        return now;
    }
    let last = word(book, LAST_CHECK_OUT);
    let window_end = word(book, OPENING) + DAY;
    match random.below(20) {
        0..2 => last,
        2..4 if window_end > last + duration => near(random, window_end - duration).max(last),
        4 => last + random.within(0, 3 * DAY),
        _ => last + random.within(0, 90),
    }
}

fn near(random: &mut Random, minute: u64) -> u64 {
    (minute + random.below(3)).saturating_sub(1)
}

/// Mostly alone or few; at times as many as there may be.
fn party(random: &mut Random) -> [u64; 3] {
    match random.below(20) {
        0..7 => [0; 3],
        7..9 => [10; 3],
        9 => [0; 3].map(|_| random.within(0, 10)),
        _ => [0; 3].map(|_| random.pick(&[0, 0, 1, 1, 2])),
    }
}

/// Two or more stops; at times out and back, or where a trip is just broken or just not. A tariff without stops lacks
/// them.
fn stops(random: &mut Random, tariff: &Tariff) -> Vec<usize> {
    if tariff.stops.is_empty() {
        return vec![0, 0];
    }
    match random.below(20) {
        0..4 => out_and_back(random, tariff),
        4..7 => at_the_factor(random, tariff),
        7 => partly_in_a_town(random, tariff),
        _ => some_stops(random, tariff),
    }
}

/// Some stops in a marked town, and one anywhere before or behind them.
fn partly_in_a_town(random: &mut Random, tariff: &Tariff) -> Vec<usize> {
    let is_in_a_town = |&stop: &usize| tariff.areas[tariff.stops[stop].area].is_marked_town();
    let all: Vec<usize> = (0..tariff.stops.len()).filter(is_in_a_town).collect();
    if all.is_empty() {
        return some_stops(random, tariff);
    }
    let town = tariff.stops[random.pick(&all)].area;
    let inside: Vec<usize> = all.into_iter().filter(|&stop| tariff.stops[stop].area == town).collect();
    let mut stops: Vec<usize> = (0..random.within(2, 3)).map(|_| random.pick(&inside)).collect();
    stops.insert(random.pick(&[0, stops.len()]), random.index(tariff.stops.len()));
    stops
}

/// Mostly all in one area or within it.
fn some_stops(random: &mut Random, tariff: &Tariff) -> Vec<usize> {
    let home = tariff.stops[random.index(tariff.stops.len())].area;
    let within = match random.below(10) {
        0..6 => home,
        6..9 => tariff.areas[home].parent,
        _ => 0,
    };
    let possible: Vec<usize> =
        (0..tariff.stops.len()).filter(|&stop| tariff.contains(within, tariff.stops[stop].area)).collect();
    let many = match random.below(20) {
        0 => 32,
        1..3 => random.within(2, 32),
        _ => random.pick(&[2, 2, 2, 3, 4]),
    };
    (0..many).map(|_| random.pick(&possible)).collect()
}

/// Ends where it begins: at the same stop, or at any that is at the same point.
fn out_and_back(random: &mut Random, tariff: &Tariff) -> Vec<usize> {
    let mut stops = some_stops(random, tariff);
    stops.truncate(31);
    let point = |stop: usize| (tariff.stops[stop].x, tariff.stops[stop].y);
    let there: Vec<usize> = (0..tariff.stops.len()).filter(|&stop| point(stop) == point(stops[0])).collect();
    let any = random.pick(&there);
    stops.push(random.pick(&[stops[0], any]));
    stops
}

/// The change is the factor times as far from the first stop as the last one is, but for a metre or so. The makers of
/// tariffs put such stops behind each other: first, last, change.
fn at_the_factor(random: &mut Random, tariff: &Tariff) -> Vec<usize> {
    let firsts: Vec<usize> =
        (0..tariff.stops.len().saturating_sub(2)).filter(|&first| is_at_the_factor(tariff, first)).collect();
    if firsts.is_empty() {
        return some_stops(random, tariff);
    }
    let first = random.pick(&firsts);
    let (last, change) = (first + 1, first + 2);
    match random.below(4) {
        0 => vec![first, last, change, first, last],
        1 => vec![first, change, last, change, last],
        _ => vec![first, change, last],
    }
}

fn is_at_the_factor(tariff: &Tariff, first: usize) -> bool {
    let (last, change) = (first + 1, first + 2);
    let factor = tariff.factor_for(tariff.area_of_stops(&[first, last, change])).factor;
    let metres = |to: usize| (squared_distance(&tariff.stops[first], &tariff.stops[to]) as f64).sqrt();
    (metres(change) - factor as f64 * metres(last)).abs() < 2.0
}

#[cfg(test)]
mod tests {
    use super::*;
    use crate::model::trip::Trip;

    #[test]
    fn stamps_are_those_of_their_minutes() {
        let mut random = Random::of(1, 0);
        let some = [0, 1, 1_439, 1_440, LAST_MINUTE - 1_440, LAST_MINUTE - 120];
        for minute in some.into_iter().chain((0..5_000).map(|_| start(&mut random).min(LAST_MINUTE - 120))) {
            for offsets in [[1, 1], [1, 2], [2, 1], [2, 2]] {
                let (check_in, check_out, stops) = (minute, minute, vec![0, 0]);
                let plan = Plan { check_in, check_out, offsets, class: 1, level: 0, party: [0; 3], stops };
                let trip = Trip::read(&plan.bytes()).expect("a trip");
                assert_eq!([trip.check_in.offset, trip.check_out.offset], offsets);
                assert_eq!(trip.check_in.minute_number(), Some(minute));
                assert_eq!(trip.check_out.minute_number(), Some(minute));
            }
        }
        assert_eq!(stamp(LAST_MINUTE - 59, 1), [0x34, 0x08, 1, 1, 0, 0, 1], "2100-01-01T00:00+01:00");
    }
}
