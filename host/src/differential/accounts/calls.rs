//! A call on a page, as it is given to both sides.

use super::pages::{member_in, place_in_words};
use crate::differential::report::hexadecimal;
use crate::model::page::PLACE_BYTES;

#[derive(Clone, Copy, Debug, PartialEq, Eq)]
pub enum Call {
    Add,
    Close,
    Settle,
}

impl Call {
    pub const ALL: [Call; 3] = [Call::Add, Call::Close, Call::Settle];

    /// What is done.
    pub fn doing(self) -> &'static str {
        ["adding", "closing", "settling"][self as usize]
    }

    /// What was done where it was accepted.
    pub fn done(self) -> &'static str {
        ["added", "closed", "settled"][self as usize]
    }
}

/// Tariff, trip and the statement's length are settling's alone.
#[derive(Clone, Debug)]
pub struct PageCase {
    pub page: Vec<u8>,
    pub association: u32,
    pub member: u32,
    pub call: Call,
    pub tariff: Vec<u8>,
    pub trip: Vec<u8>,
    /// Bytes of the statement slice.
    pub room: usize,
    /// How it was made, for whoever reads about a difference.
    pub story: Vec<&'static str>,
}

impl PageCase {
    /// What is asked, and of which page.
    pub fn in_words(&self) -> String {
        let PageCase { page, association, member, call, tariff, trip, room, story } = self;
        let mut text = format!("made as: {}\npage of {} bytes:", story.join(", "), page.len());
        for (place, bytes) in page.chunks(PLACE_BYTES).enumerate() {
            text += &match bytes.len() {
                PLACE_BYTES => format!("\n  place {place}: {}", place_in_words(member_in(page, place), bytes)),
                more => format!("\n  and {more} bytes"),
            };
        }
        text += &format!("\n{} member {member} of association {association}", call.doing());
        if *call == Call::Settle {
            text += &format!(
                ", with a statement of {room} bytes\ntariff of {} bytes:{}",
                tariff.len(),
                hexadecimal(tariff)
            );
            text += &format!("\ntrip of {} bytes:{}", trip.len(), hexadecimal(trip));
        }
        text + "\n"
    }
}
