//! Reading charge records of statements that were kept: kind 6, which settling writes, and kind 4, which it wrote before
//! reductions were told.

use super::clock::{LAST_MINUTE, MINUTES_IN_A_DAY};
use super::record::{record_at, Fields as Body, Record, KIND_CHARGE, KIND_CHARGES_ALONE};
use super::{refused, unless, Cents, Km, Minutes, Refusal};
use crate::numbers::put;

/// Areas are numbered from 0 to this.
const LAST_AREA: u64 = 31;
const MOST_KM: Km = 1_415;
/// Of adults, of children and of bicycles.
const MOST_CARRIED: usize = 10;
/// The highest price.
const MOST_CENTS: Cents = 3_790_000;
/// The area and the class of no cap.
const NO_CAP: (u64, u64) = (255, 0);
/// The charges of a record of kind 4: 1 to the holder, 10 adults, 10 children and 10 bicycles.
const MOST_CHARGES: usize = 31;

/// The body of kind 4 before its charges, and that of kind 6.
const HEAD_4: usize = 9;
const HEAD_6: usize = 12;
/// For each person of kind 6: charge, reduction, and the cap's area and class; any other charge stands alone.
const PERSON: usize = 10;
const ALONE: usize = 4;

/// The fields of a record of either kind.
#[derive(Clone, Debug, PartialEq, Eq)]
pub struct Fields {
    pub opening: Minutes,
    pub area: u64,
    pub km: Km,
    pub minutes: Minutes,
    /// Kind 4 does not say whose its charges are.
    pub party: Option<Party>,
    pub charges: Vec<Charge>,
}

/// Those carried besides the account holder.
#[derive(Clone, Copy, Debug, PartialEq, Eq)]
pub struct Party {
    pub adults: usize,
    pub children: usize,
    pub bicycles: usize,
}

impl Party {
    pub fn persons(&self) -> usize {
        1 + self.adults + self.children
    }
}

/// A charge, and what caps took off it: nothing, by no cap, where the record has nothing of it.
#[derive(Clone, Copy, Debug, PartialEq, Eq)]
pub struct Charge {
    pub cents: Cents,
    pub reduction: Cents,
    /// The named cap's area and class.
    pub cap: (u64, u64),
}

/// What may be out of range, in words, and whether it is.
pub const RANGES: [(&str, fn(&Fields) -> bool); 11] = [
    ("the opening", |fields| fields.opening > LAST_MINUTE),
    ("the area", |fields| fields.area > LAST_AREA),
    ("the kilometres", |fields| fields.km > MOST_KM),
    ("the minutes", |fields| fields.minutes > MINUTES_IN_A_DAY),
    ("the adults", |fields| fields.party.is_some_and(|party| party.adults > MOST_CARRIED)),
    ("the children", |fields| fields.party.is_some_and(|party| party.children > MOST_CARRIED)),
    ("the bicycles", |fields| fields.party.is_some_and(|party| party.bicycles > MOST_CARRIED)),
    ("a charge", |fields| fields.charges.iter().any(|charge| charge.cents > MOST_CENTS)),
    ("charge plus reduction", |fields| {
        fields.charges.iter().any(|charge| charge.cents + charge.reduction > MOST_CENTS)
    }),
    ("a cap named where nothing was taken off", |fields| {
        fields.charges.iter().any(|charge| charge.reduction == 0 && charge.cap != NO_CAP)
    }),
    ("no cap of an area named where something was", |fields| {
        let is_cap = |(area, class)| area <= LAST_AREA && (class == 1 || class == 2);
        fields.charges.iter().any(|charge| charge.reduction != 0 && !is_cap(charge.cap))
    }),
];

/// The record at an offset: its fields and its bytes, so that the next stands so far behind it; or its refusal. What stands
/// behind it is left alone.
pub fn read_record(statement: &[u8], at: usize) -> Result<(Fields, usize), Refusal> {
    // 14: the frame is broken; where the offset is beyond the end, nothing is left that could be whole
    let rest = statement.get(at..).ok_or(refused(14))?;
    let record = record_at(rest, 0).ok_or(refused(14))?;
    // 15: another kind, or a length that fits no party
    let fields = fields_of(&record).ok_or(refused(15))?;
    // 16: a field out of range
    unless(RANGES.iter().all(|(_, is_out)| !is_out(&fields)), 16)?;
    Ok((fields, record.size()))
}

/// The fields as they stand, whatever their values; nothing where kind or length is another.
pub fn fields_of(record: &Record) -> Option<Fields> {
    match record.kind {
        KIND_CHARGES_ALONE => charges_alone(record.body),
        KIND_CHARGE => charges_of_a_party(record.body),
        _ => None,
    }
}

/// Kind 4: 1 to 31 charges behind the minutes.
fn charges_alone(body: &[u8]) -> Option<Fields> {
    let many = (1..=MOST_CHARGES).find(|many| body.len() == HEAD_4 + ALONE * many)?;
    let mut body = Body::of(body);
    let [opening, area, km, minutes] = [4, 1, 2, 2].map(|width| body.next(width));
    let charges = (0..many).map(|_| alone(&mut body)).collect();
    Some(Fields { opening, area, km, minutes, party: None, charges })
}

/// Kind 6: the party behind the minutes, and as many charges as it has, by the numbers as they stand.
fn charges_of_a_party(body: &[u8]) -> Option<Fields> {
    if body.len() < HEAD_6 {
        return None;
    }
    let length = body.len();
    let mut body = Body::of(body);
    let [opening, area, km, minutes] = [4, 1, 2, 2].map(|width| body.next(width));
    let [adults, children, bicycles] = [(); 3].map(|()| body.next(1) as usize);
    let party = Party { adults, children, bicycles };
    if length != HEAD_6 + PERSON * party.persons() + ALONE * bicycles {
        return None;
    }
    let mut charges: Vec<Charge> = (0..party.persons()).map(|_| of_a_person(&mut body)).collect();
    charges.extend((0..bicycles).map(|_| alone(&mut body)));
    Some(Fields { opening, area, km, minutes, party: Some(party), charges })
}

fn of_a_person(body: &mut Body) -> Charge {
    let [cents, reduction, area, class] = [4, 4, 1, 1].map(|width| body.next(width));
    Charge { cents, reduction, cap: (area, class) }
}

fn alone(body: &mut Body) -> Charge {
    Charge { cents: body.next(ALONE), reduction: 0, cap: NO_CAP }
}

impl Fields {
    pub fn kind(&self) -> u64 {
        self.party.map_or(KIND_CHARGES_ALONE, |_| KIND_CHARGE)
    }

    /// The bytes in which C is told the fields: kind, number of charges, adults, children, bicycles, area, kilometres,
    /// minutes and opening, then each charge with its reduction and the cap's area and class.
    pub fn bytes(&self) -> Vec<u8> {
        let Party { adults, children, bicycles } = self.party.unwrap_or(Party { adults: 0, children: 0, bicycles: 0 });
        let mut bytes = Vec::new();
        put(&mut bytes, 1, self.kind());
        for many in [self.charges.len(), adults, children, bicycles] {
            put(&mut bytes, 1, many as u64);
        }
        for (width, value) in [(1, self.area), (2, self.km), (2, self.minutes), (4, self.opening)] {
            put(&mut bytes, width, value);
        }
        for &Charge { cents, reduction, cap: (area, class) } in &self.charges {
            for (width, value) in [(4, cents), (4, reduction), (1, area), (1, class)] {
                put(&mut bytes, width, value);
            }
        }
        bytes
    }
}

/// Reads the record at an offset. Accepted: its bytes; its fields stand at the start of `fields`, and what is behind them
/// stays. Refused, by 14 to 16 and then 12: `fields` stays.
pub fn read(statement: &[u8], at: usize, fields: &mut [u8]) -> Result<usize, Refusal> {
    let (told, size) = read_record(statement, at)?;
    let bytes = told.bytes();
    // 12: the slice is shorter than the fields
    unless(bytes.len() <= fields.len(), 12)?;
    fields[..bytes.len()].copy_from_slice(&bytes);
    Ok(size)
}
