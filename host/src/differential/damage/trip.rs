//! Damage to the trip: refusals 5 to 9 and 17.

use crate::differential::cases::Draft;
use crate::differential::fields::{set, stop_field, value, values, Field};
use crate::differential::fields::{
    CHECK_IN, COUNT_FIELDS, KINDS, LENGTHS, NUMBER_OF_STOPS, STAMP, STAMP_FIELDS, TRIP_HEAD,
};
use crate::differential::random::Random;
use crate::differential::trips::{local_stamp, stamp, Plan, DAY, HOUR, LAST_MINUTE};
use crate::model::read_file;

/// Cut, too long, of another kind, without offsets, or with a length or a number of stops that do not fit.
pub fn shape(random: &mut Random, draft: &mut Draft) {
    let trip = &mut draft.case.trip;
    match random.below(7) {
        0 => trip.truncate(random.index(trip.len() + 1)),
        1 => trip.extend([3, 0, 2, 0][..1 + random.index(4)].iter()),
        2 => set(trip, 0, &KINDS, random.pick(KINDS.edges)),
        3 => at_an_edge(random, trip, &LENGTHS, 0),
        4 => at_an_edge(random, trip, &NUMBER_OF_STOPS, 0),
        5 => without_offsets(random, trip),
        _ => {
            // A whole frame with a body of any length.
            let body = random.pick(&[0, 1, 18, 19, 20, 21, 23, 1_022]);
            trip.resize(4 + body, 2);
            set(trip, 0, &LENGTHS, 2 + body as u64);
        }
    }
}

/// The stamps without their offsets, in a whole frame: a trip of kind 3, or one of kind 7 that is too short.
fn without_offsets(random: &mut Random, trip: &mut Vec<u8>) {
    if trip.len() < TRIP_HEAD {
        return;
    }
    for place in [CHECK_IN + 2 * STAMP - 1, CHECK_IN + STAMP - 1] {
        trip.remove(place);
    }
    let length = trip.len() as u64 - 2;
    set(trip, 0, &LENGTHS, length);
    set(trip, 0, &KINDS, random.pick(&[3, 3, 7]));
}

/// A count at an edge, or a number of stops that its length fits.
pub fn counts(random: &mut Random, draft: &mut Draft) {
    let trip = &mut draft.case.trip;
    if random.chance(70) {
        let field = &COUNT_FIELDS[random.index(COUNT_FIELDS.len())];
        at_an_edge(random, trip, field, 0);
    } else {
        let stops = random.pick(&[0, 1, 2, 32, 33, 33, 34, 255]);
        trip.resize(TRIP_HEAD + 2 * stops, 0);
        set(trip, 0, &LENGTHS, (TRIP_HEAD - 2 + 2 * stops) as u64);
        set(trip, 0, &NUMBER_OF_STOPS, stops as u64);
    }
}

/// A stop number at the end of the tariff's, or past it.
pub fn stops(random: &mut Random, draft: &mut Draft) {
    let field = stop_field(random.index(draft.plan.stops.len()));
    let stops = draft.layout().stops as u64;
    let number = random.pick(&[stops.saturating_sub(1), stops, stops, stops, stops + 1, 1_000, 65_535]);
    set(&mut draft.case.trip, 0, &field, number);
}

/// A field of a stamp at an edge, mostly its offset, a date around the end of a month, or a moment around minute 0 or
/// around the end of the last year.
pub fn stamps(random: &mut Random, draft: &mut Draft) {
    let trip = &mut draft.case.trip;
    let which = random.index(STAMP_FIELDS.len());
    let fields = &STAMP_FIELDS[which];
    let field = random.pick(&[0, 1, 2, 3, 4, 5, 5, 5]);
    match random.below(10) {
        0..5 => at_an_edge(random, trip, &fields[field], 0),
        5..7 => {
            set(trip, 0, &fields[0], random.pick(&[2000, 2001, 2003, 2004, 2096, 2099, 2100]));
            set(trip, 0, &fields[1], random.within(1, 12));
            set(trip, 0, &fields[2], random.within(28, 31));
        }
        _ => {
            let first = random.pick(&[0, 0, LAST_MINUTE - 2 * HOUR]);
            let minute = first + random.pick(&[0, 1, HOUR, 2 * HOUR, 3 * HOUR]) + random.below(3);
            put_stamp(trip, which, local_stamp(minute.saturating_sub(1), random.pick(&[0, 1, 1, 2, 2, 3])));
        }
    }
}

/// A check-out a minute too early, a minute too late, or just inside.
pub fn duration(random: &mut Random, draft: &mut Draft) {
    let (check_in, check_out) = match random.below(6) {
        0..2 => (draft.plan.check_in + 1, draft.plan.check_in),
        2 => (draft.plan.check_in + random.within(0, 3 * DAY), draft.plan.check_out),
        3 => (draft.plan.check_in, draft.plan.check_in + DAY),
        _ => (draft.plan.check_in, draft.plan.check_in + DAY + random.pick(&[1, 1, 1, 2, DAY, 525_600])),
    };
    let [first, second] = draft.plan.offsets;
    put_stamp(&mut draft.case.trip, 0, stamp(check_in, first));
    put_stamp(&mut draft.case.trip, 1, stamp(check_out, second));
}

/// All stops are one stop, or but for one, and the duration is just under or just at 3 minutes. The other stop is mostly at
/// the same point, where there is one.
pub fn at_one_point(random: &mut Random, draft: &mut Draft) {
    let Ok(file) = read_file(&draft.case.tariff) else { return };
    let Some(tariff) = file.editions.get(draft.edition - 1).map(|edition| &edition.tariff) else { return };
    let point = |stop: usize| tariff.stops.get(stop).map(|stop| (stop.x, stop.y));
    let (stop, many) = (draft.plan.stops[0], random.pick(&[2, 2, 2, 3, 3, 4, 32]));
    let there: Vec<usize> = (0..tariff.stops.len()).filter(|&other| point(other) == point(stop)).collect();
    let mut plan = Plan { stops: vec![stop; many], ..draft.plan.clone() };
    match random.below(10) {
        0..3 if !there.is_empty() => plan.stops[random.index(many)] = random.pick(&there),
        3 => plan.stops[random.index(many)] = random.index(tariff.stops.len().max(1)),
        _ => {}
    }
    plan.check_out = plan.check_in + random.pick(&[0, 1, 2, 2, 3, 3]);
    draft.case.trip = plan.bytes();
}

/// Puts the check-in, 0, or the check-out, 1, unless the trip is too short for it.
fn put_stamp(trip: &mut [u8], which: usize, stamp: [u8; STAMP]) {
    let place = CHECK_IN + STAMP * which;
    if let Some(found) = trip.get_mut(place..place + STAMP) {
        found.copy_from_slice(&stamp);
    }
}

fn at_an_edge(random: &mut Random, trip: &mut [u8], field: &Field, record: usize) {
    let present = value(trip, record, field).unwrap_or(0);
    set(trip, record, field, random.pick(&values(field, present, &[])));
}
