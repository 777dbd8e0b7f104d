//! Changes, and the parts in which a trip is charged: one, or two where it goes out and back.

use super::fare::squared_distance;
use super::tariff::{Level, Tariff};
use super::Minutes;

/// What is priced and charged as a trip of its own.
#[derive(Clone, Debug, PartialEq, Eq)]
pub struct Part {
    /// First to last.
    pub stops: Vec<usize>,
    pub minutes: Minutes,
}

/// The parts of a trip through these stops. Where it is broken, the change belongs to both; the first part has the whole
/// duration, and the second has 0 minutes, at the check-out.
pub fn parts_of(tariff: &Tariff, stops: &[usize], duration: Minutes) -> Vec<Part> {
    match farthest_change(tariff, stops) {
        Some(change) if is_broken_at(tariff, stops, change) => vec![
            Part { stops: stops[..=change].to_vec(), minutes: duration },
            Part { stops: stops[change..].to_vec(), minutes: 0 },
        ],
        _ => vec![Part { stops: stops.to_vec(), minutes: duration }],
    }
}

/// Whether a trip through these stops has a part whose area is a marked town. Where it is not broken, it is that part.
pub fn rides_in_a_marked_town(tariff: &Tariff, stops: &[usize]) -> bool {
    let parts = parts_of(tariff, stops, 0);
    parts.iter().any(|part| tariff.areas[tariff.area_of_stops(&part.stops)].is_marked_town())
}

/// The place among the stops of the change farthest from the first stop, the first of equals; nothing without a change. A
/// change is a stop between first and last, by its place and not by its number.
pub fn farthest_change(tariff: &Tariff, stops: &[usize]) -> Option<usize> {
    let distance = |place: usize| squared_distance(&tariff.stops[stops[0]], &tariff.stops[stops[place]]);
    let mut farthest = None;
    for change in 1..stops.len() - 1 {
        if farthest.is_none_or(|before| distance(change) > distance(before)) {
            farthest = Some(change);
        }
    }
    farthest
}

/// Whether a trip whose farthest change is this one is broken there: first and last stop are at the same point, or the
/// change is more than the factor times as far from the first stop as the last one is. A trip inside a city is never
/// broken where its region says so.
fn is_broken_at(tariff: &Tariff, stops: &[usize], change: usize) -> bool {
    let area = tariff.area_of_stops(stops);
    let rule = tariff.factor_for(area);
    if tariff.areas[area].level == Level::City && rule.keeps_city_trips {
        return false;
    }
    let [first, far, last] = [stops[0], stops[change], stops[stops.len() - 1]].map(|stop| &tariff.stops[stop]);
    let is_same_point = first.x == last.x && first.y == last.y;
    is_same_point || squared_distance(first, far) > rule.factor * rule.factor * squared_distance(first, last)
}
