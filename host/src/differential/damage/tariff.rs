//! Damage to the tariff: refusals 1 to 3.

use super::{some_layout, some_record};
use crate::differential::cases::Draft;
use crate::differential::fields::{
    self, set, values, AACHEN_AREA, AREA, FACTOR, KINDS, LENGTHS, OPENING, OPENING_FIELDS, STOP,
};
use crate::differential::random::Random;
use crate::differential::tariffs::opening;

/// Cut anywhere, one to three bytes too many, or a length that is no length.
pub fn frames(random: &mut Random, draft: &mut Draft) {
    let length = draft.case.tariff.len();
    match random.below(4) {
        0 => draft.case.tariff.truncate(random.index(length + 1)),
        1 => draft.case.tariff.truncate(length.saturating_sub(random.index(5))),
        2 => draft.case.tariff.resize(length + 1 + random.index(4), random.pick(&[0, 1, 2, 11, 27, 255])),
        _ => {
            let (record, ..) = some_record(random, draft);
            let any = random.below(65_536);
            let value = random.pick(&[0, 1, 1_025, 1_026, 65_535, any]);
            set(&mut draft.case.tariff, record, &LENGTHS, value);
        }
    }
}

/// Another kind, a body that is too short or too long, another order, too many, or none.
pub fn shape(random: &mut Random, draft: &mut Draft) {
    let layout = some_layout(random, draft);
    let stops_start = layout.stop(0).min(draft.case.tariff.len());
    let areas_end = layout.factor(0).min(stops_start);
    let areas_start = layout.area(0).min(areas_end);
    let tariff = &mut draft.case.tariff;
    match random.below(9) {
        0 => {
            let (record, ..) = some_record(random, draft);
            let kind = random.pick(KINDS.edges);
            set(&mut draft.case.tariff, record, &KINDS, kind);
        }
        1 | 2 => resized_record(random, draft),
        3 => tariff.clear(),
        4 => {
            // A stop or a factor record first, or some areas less.
            let first = layout.area(random.index(layout.areas));
            let start = random.pick(&[stops_start, areas_end, first]);
            tariff.drain(areas_start..start.clamp(areas_start, stops_start));
        }
        5 => {
            // An area, or part of one, after the stops.
            let area = tariff[areas_start..(areas_start + AREA).min(tariff.len())].to_vec();
            let end = layout.end().min(tariff.len());
            tariff.splice(end..end, area);
        }
        6 => {
            // A stop between the areas.
            let stop = tariff[stops_start..(stops_start + STOP).min(tariff.len())].to_vec();
            let place = layout.area(random.index(layout.areas + 1)).min(tariff.len());
            tariff.splice(place..place, stop);
        }
        7 => {
            let size = layout.area_size(layout.areas - 1);
            let times = random.within(32, 34) as usize - layout.areas.min(32);
            repeat(tariff, areas_end.saturating_sub(size), size, times);
        }
        _ => {
            let last = layout.end().min(tariff.len()).saturating_sub(STOP).max(stops_start);
            repeat(tariff, last, STOP, random.within(1_000, 1_001) as usize - layout.stops.min(1_000));
        }
    }
}

/// A factor record less or more, or at another place; or an area behind one.
pub fn factors(random: &mut Random, draft: &mut Draft) {
    let layout = &some_layout(random, draft);
    let tariff = &mut draft.case.tariff;
    if tariff.len() < layout.end() {
        return;
    }
    let some = layout.factor(random.index(layout.factors));
    let record = tariff[some..some + FACTOR].to_vec();
    match random.below(7) {
        0 => drop(tariff.drain(some..some + FACTOR)),
        1 => drop(tariff.drain(layout.factor(0)..layout.stop(0))),
        // The tariff ends where a factor record is due, or just behind the last one.
        2 => tariff.truncate(layout.factor(random.index(layout.factors + 1))),
        3 => drop(tariff.splice(some..some, record)),
        4 => {
            // Before the areas or among them.
            let place = layout.area(random.index(layout.areas));
            tariff.splice(place..place, record);
        }
        5 => {
            // Among the stops, behind the last one, or right before the first, where it is one too many.
            let place = layout.stop(random.index(layout.stops + 1));
            tariff.splice(place..place, record);
        }
        _ => {
            // An area between the factor records, or behind them.
            let area = tariff[layout.area(layout.areas - 1)..layout.area(layout.areas)].to_vec();
            let place = layout.factor(1 + random.index(layout.factors));
            tariff.splice(place..place, area);
        }
    }
}

/// A record whose frame is whole, with a body that is some bytes too short or too long.
fn resized_record(random: &mut Random, draft: &mut Draft) {
    let (record, size, _) = some_record(random, draft);
    let tariff = &mut draft.case.tariff;
    if record + size > tariff.len() {
        return;
    }
    if random.chance(50) {
        let less = 1 + random.index(size - 4);
        tariff.drain(record + size - less..record + size);
        set(tariff, record, &LENGTHS, (size - 2 - less) as u64);
    } else {
        let more = random.pick(&[1, 1, 2, AACHEN_AREA - AREA, AREA, 1_024 - (size - 2)]);
        tariff.splice(record + size..record + size, vec![0; more]);
        set(tariff, record, &LENGTHS, (size - 2 + more) as u64);
    }
}

/// An area made one of the other kind, in a whole frame: the state, a city, or a region with its cities behind it.
pub fn other_kind(random: &mut Random, draft: &mut Draft) {
    let layout = some_layout(random, draft);
    let area = random.index(layout.areas);
    let (place, size) = (layout.area(area), layout.area_size(area));
    let tariff = &mut draft.case.tariff;
    if place + size > tariff.len() {
        return;
    }
    let (kind, other_size) = if size == AREA { (8, AACHEN_AREA) } else { (1, AREA) };
    let mut record = tariff[place..place + size].to_vec();
    // Zeros fit every sort of trip cap.
    record.resize(other_size, 0);
    set(&mut record, 0, &LENGTHS, other_size as u64 - 2);
    set(&mut record, 0, &KINDS, kind);
    tariff.splice(place..place + size, record);
}

/// An opening less or more, or at another place; or with a body of another length.
pub fn openings(random: &mut Random, draft: &mut Draft) {
    let layout = some_layout(random, draft);
    let tariff = &mut draft.case.tariff;
    if tariff.len() < draft.layouts.last().map_or(0, |last| last.end()) {
        return;
    }
    let late = opening(random.pick(&[36_000, 36_524]));
    match random.below(8) {
        // The first record is another one, or the second edition's records go on the first one's.
        0 => drop(tariff.drain(layout.opening..layout.opening + OPENING)),
        // A third one where the file ends; or a second one, and the file ends where an area is due.
        1 => tariff.extend(late),
        // A third edition.
        2 => {
            let more = [&late, &tariff[layout.area(0)..layout.end()]].concat();
            tariff.extend(more);
        }
        // Where an area is due.
        3 => drop(tariff.splice(layout.area(0)..layout.area(0), late)),
        // Where a factor record is due.
        4 => {
            let place = layout.factor(random.index(layout.factors));
            tariff.splice(place..place, late);
        }
        // Anywhere.
        5 => {
            let place = random.pick(&layout.places());
            tariff.splice(place..place, late);
        }
        // Another body.
        6 => {
            let size = random.pick(&[0, 2, 3, 5, 6, 7]);
            let mut body = tariff[layout.opening + 4..layout.opening + OPENING].to_vec();
            body.resize(size, 0);
            tariff.splice(layout.opening + 4..layout.opening + OPENING, body);
            set(tariff, layout.opening, &LENGTHS, size as u64 + 2);
        }
        // The file ends behind an opening, or where a factor record is due.
        _ => {
            let factor = layout.factor(random.index(layout.factors));
            tariff.truncate(random.pick(&[layout.area(0), factor]));
        }
    }
}

/// A date that is none, or not after the first edition's.
pub fn dates(random: &mut Random, draft: &mut Draft) {
    let layout = some_layout(random, draft);
    let fields = &OPENING_FIELDS[2..];
    match random.below(5) {
        0..2 => {
            let field = &fields[random.index(fields.len())];
            let present = fields::value(&draft.case.tariff, layout.opening, field).unwrap_or(0);
            set(&mut draft.case.tariff, layout.opening, field, random.pick(&values(field, present, &[])));
        }
        2 => {
            let date =
                [random.pick(&[2000, 2001, 2004, 2096, 2099, 2100]), random.within(1, 12), random.within(28, 31)];
            for (field, value) in fields.iter().zip(date) {
                set(&mut draft.case.tariff, layout.opening, field, value);
            }
        }
        _ => {
            // Both on one day, or the second before the first.
            let first = random.within(1, 36_524);
            put_date(draft, 0, first);
            let before = random.within(0, first);
            put_date(draft, 1, random.pick(&[first, first, first - 1, first + 1, before]));
        }
    }
}

/// Puts the date that is so many days after 2000-01-01 into the opening of the edition at this place, from 0, if there is one.
pub fn put_date(draft: &mut Draft, edition: usize, days: u64) {
    let Some(layout) = draft.layouts.get(edition) else { return };
    if let Some(found) = draft.case.tariff.get_mut(layout.opening..layout.opening + OPENING) {
        found.copy_from_slice(&opening(days));
    }
}

/// Puts the `size` bytes at `place` in `times` more times.
fn repeat(tariff: &mut Vec<u8>, place: usize, size: usize, times: usize) {
    let record = tariff[place..(place + size).min(tariff.len())].to_vec();
    tariff.splice(place..place, record.repeat(times));
}

/// A field of a record at an edge, but for length and kind.
pub fn value(random: &mut Random, draft: &mut Draft) {
    let (record, _, all) = some_record(random, draft);
    let field = &all[2 + random.index(all.len() - 2)];
    let present = fields::value(&draft.case.tariff, record, field).unwrap_or(0);
    let layout = draft.layouts.iter().rfind(|layout| layout.opening <= record).unwrap_or(draft.layout());
    let number = (0..layout.areas).filter(|&area| layout.area(area) < record).count();
    let value = random.pick(&values(field, present, &[layout.areas, number]));
    set(&mut draft.case.tariff, record, field, value);
}
