//! The charge record. Refusal 12 is given where those of a trip have no room.

use super::fare::Ride;
use super::trip::Trip;
use super::Minutes;

/// The bytes before the charges; those of a person: charge, reduction, and the cap's area and class; of a bicycle.
pub const HEAD_BYTES: usize = 16;
pub const PERSON: usize = 10;
pub const BICYCLE: usize = 4;
const KIND: u64 = 6;

/// The bytes that the record of each part of this trip takes.
#[inline(always)]
pub fn record_bytes(trip: &Trip) -> usize {
    HEAD_BYTES + PERSON * (1 + trip.adults() + trip.children()) + BICYCLE * trip.bicycles()
}

/// Length, kind, opening minute, area, kilometres, minutes and the party.
#[inline(always)]
pub fn head_of(bytes: usize, opening: Minutes, trip: &Trip, ride: &Ride) -> [u8; HEAD_BYTES] {
    let mut head = [0; HEAD_BYTES];
    let front = (bytes as u64 - 2) | KIND << 16 | u64::from(opening) << 32;
    let ride = ride.area as u64 | u64::from(ride.km) << 8 | u64::from(ride.minutes) << 24;
    head[..8].copy_from_slice(&front.to_le_bytes());
    head[8..].copy_from_slice(&(ride | u64::from(trip.party) << 40).to_le_bytes());
    head
}
