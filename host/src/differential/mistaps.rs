//! The kinds of trips that are nearly mistaps, and are accepted; each is enough if it is met at all.

use crate::model::statement::ChargeRecord;
use crate::model::tariff::Tariff;
use crate::model::trip::Trip;

pub const NEARLY: [&str; 4] = [
    "at one stop, 3 minutes",
    "at one stop by way of it, 3 minutes, broken into two parts",
    "two stops at one point, under 3 minutes",
    "away and back to the stop, under 3 minutes",
];

pub fn kinds_of_mistaps(tariff: &Tariff, trip: &Trip, records: &[ChargeRecord]) -> [bool; NEARLY.len()] {
    let (stops, minutes) = (&trip.stops, records[0].minutes);
    let point = |stop: usize| (tariff.stops[stop].x, tariff.stops[stop].y);
    let is_one_stop = stops.iter().all(|&stop| stop == stops[0]);
    let is_one_point = stops.iter().all(|&stop| point(stop) == point(stops[0]));
    [
        is_one_stop && minutes == 3,
        is_one_stop && minutes == 3 && records.len() == 2,
        !is_one_stop && is_one_point && minutes < 3,
        !is_one_point && stops.first() == stops.last() && minutes < 3,
    ]
}
