//! The rules that look at more than one line: which record may follow which, and what a record names.

use super::words::with_commas;
use crate::model::clock::Date;
use crate::model::editions::MOST_EDITIONS;
use crate::model::record::{Fields, KIND_AACHEN_AREA, KIND_AREA, KIND_EDITION, KIND_FACTOR, KIND_STOP, KIND_TRIP};
use crate::model::tariff::{MOST_AREAS, MOST_STOPS};
use crate::model::Minutes;
use crate::numbers::number;

/// Where a trip's body has its stops.
const TRIPS_STOPS: usize = 20;

const STATE: u8 = 0;
const REGION: u8 = 1;

/// What other areas are compared with.
struct Area {
    kind: u64,
    level: u8,
    /// Of kind 8 the bicycle's cap.
    flat: u64,
}

/// What stands in the lines so far: of a tariff the editions, and what the last of them has.
#[derive(Default)]
pub struct Order {
    /// The first minute of each, where it has a date.
    editions: Vec<Option<Minutes>>,
    areas: Vec<Area>,
    factors: usize,
    stops: usize,
    trips: usize,
    /// The stops of the tariff that the trips are under, of the edition with the most of them, once that is named.
    pub known_stops: Option<usize>,
}

impl Order {
    /// The mistakes of the next record, which then counts as one of them.
    pub fn follow(&mut self, kind: u64, body: &[u8]) -> Vec<String> {
        match kind {
            KIND_EDITION => self.edition(body),
            KIND_AREA | KIND_AACHEN_AREA => self.area(kind, body),
            KIND_FACTOR => self.factor(body),
            KIND_STOP => self.stop(body),
            KIND_TRIP => self.trip(body),
            _ => Vec::new(),
        }
    }

    /// The mistakes of where the text ends.
    pub fn end(&self) -> Vec<String> {
        self.areas_missing().into_iter().chain(self.factors_missing()).collect()
    }

    /// The next edition's opening. What follows is of that edition.
    fn edition(&mut self, body: &[u8]) -> Vec<String> {
        let mut mistakes = self.among_trips("an edition");
        mistakes.extend(self.end());
        if self.editions.len() >= MOST_EDITIONS {
            mistakes
                .push(format!("this is edition {}, and a tariff has {MOST_EDITIONS} at most", self.editions.len() + 1));
        }
        let since = Date::read(&mut Fields::of(body)).first_minute();
        if let (Some(since), Some(&Some(before))) = (since, self.editions.last()) {
            if since <= before {
                mistakes.push("an edition's date is after that of the edition before".to_string());
            }
        }
        self.editions.push(since);
        (self.areas, self.factors, self.stops) = (Vec::new(), 0, 0);
        mistakes
    }

    fn area(&mut self, kind: u64, body: &[u8]) -> Vec<String> {
        let (level, parent, flat) = (body[0], usize::from(body[1]), number(&body[23..25]));
        let mut mistakes = self.in_a_tariff("an area");
        let place = self.areas.len();
        if self.factors + self.stops > 0 {
            mistakes.push("an area behind a factor or a stop: all areas come first".to_string());
        }
        if place >= MOST_AREAS {
            mistakes
                .push(format!("this is area {place}, and a tariff has {MOST_AREAS} at most, 0 to {}", MOST_AREAS - 1));
        }
        match (level, place) {
            (STATE, 0) if parent == 0 => (),
            (STATE, 0) => mistakes.push("the state's parent is 0, the state itself".to_string()),
            (STATE, _) => mistakes.push("a second state: the first area alone is the state".to_string()),
            (_, 0) => mistakes.push("the first area has to be the state".to_string()),
            (REGION, _) if parent == 0 => (),
            (REGION, _) => mistakes.push("a region's parent is 0, the state".to_string()),
            _ if self.areas.get(parent).is_some_and(|above| above.level == REGION) => (),
            _ => mistakes.push(format!("a city's parent is a region before it, and area {parent} is none")),
        }
        match self.areas.get(parent) {
            None if place == 0 && kind == KIND_AACHEN_AREA => {
                mistakes.push("the state is a line 'area', not 'aachen'".to_string());
            }
            None => (),
            Some(above) if above.kind == kind && flat > above.flat => {
                mistakes.push(format!("bike {} is above its parent's {}", with_commas(flat), with_commas(above.flat)));
            }
            Some(above) if above.kind != kind && above.level == REGION && level > REGION => {
                let word = if kind == KIND_AREA { "aachen" } else { "area" };
                mistakes.push(format!("a city is of its region's kind: area {parent} is a line '{word}'"));
            }
            Some(_) => (),
        }
        self.areas.push(Area { kind, level, flat });
        mistakes
    }

    fn factor(&mut self, body: &[u8]) -> Vec<String> {
        let mut mistakes = self.in_a_tariff("a factor");
        if self.stops > 0 {
            mistakes.push("a factor behind a stop: all factors come before the stops".to_string());
        } else if self.factors >= self.factors_due() {
            mistakes.push(format!("a factor too many: {} are due, for the state and each region", self.factors_due()));
        }
        if self.factors == 0 && body[1] == 1 {
            mistakes.push("mark 1 is not allowed here: the first factor is the state's, and its mark is 0".to_string());
        }
        self.factors += 1;
        mistakes
    }

    fn stop(&mut self, body: &[u8]) -> Vec<String> {
        let mut mistakes = self.in_a_tariff("a stop");
        let (area, areas) = (usize::from(body[0]), self.areas.len());
        if areas == 0 {
            mistakes.push("a stop before any area".to_string());
        } else if area >= areas {
            mistakes.push(format!("there is no area {area}: areas are 0 to {}", areas - 1));
        }
        if self.stops == 0 {
            mistakes.extend(self.factors_missing());
        }
        if self.stops >= MOST_STOPS {
            mistakes.push(format!(
                "this is stop {}, and a tariff has {} at most",
                self.stops,
                with_commas(MOST_STOPS as u64)
            ));
        }
        self.stops += 1;
        mistakes
    }

    fn trip(&mut self, body: &[u8]) -> Vec<String> {
        let mut mistakes = Vec::new();
        if !self.editions.is_empty() || !self.areas.is_empty() {
            mistakes.push("a trip in a tariff: trips stand in a text of their own".to_string());
        }
        match self.known_stops {
            None if self.trips == 0 => {
                mistakes.push(
                    "the tariff with the stops is not named: a line 'tariff FILE' is due before the first trip"
                        .to_string(),
                );
            }
            None => (),
            Some(stops) => {
                let unknown = body[TRIPS_STOPS..].chunks(2).map(number).filter(|&stop| stop as usize >= stops);
                mistakes.extend(unknown.map(|stop| match stops {
                    0 => format!("there is no stop {stop}: the tariff has none"),
                    _ => format!("there is no stop {stop}: the tariff's are 0 to {}", stops - 1),
                }));
            }
        }
        self.trips += 1;
        mistakes
    }

    /// The mistakes of where a record of an edition stands.
    fn in_a_tariff(&self, what: &str) -> Vec<String> {
        let mut mistakes = self.among_trips(what);
        if self.trips == 0 && self.editions.is_empty() && self.areas.len() + self.factors + self.stops == 0 {
            mistakes.push(format!("{what} before any edition: a line 'edition DATE' comes first"));
        }
        mistakes
    }

    fn among_trips(&self, what: &str) -> Vec<String> {
        let told = format!("{what} among trips: a tariff stands in a text of its own");
        (self.trips > 0).then_some(told).into_iter().collect()
    }

    fn areas_missing(&self) -> Option<String> {
        let told = "an edition without areas".to_string();
        (!self.editions.is_empty() && self.areas.is_empty()).then_some(told)
    }

    /// One for the state and one for each region.
    fn factors_due(&self) -> usize {
        self.areas.iter().filter(|area| area.level <= REGION).count()
    }

    fn factors_missing(&self) -> Option<String> {
        let (due, there) = (self.factors_due(), self.factors);
        let told = format!(
            "factors are missing: {due} are due, one for the state and one for each region, and {there} stand there"
        );
        (there < due).then_some(told)
    }
}
