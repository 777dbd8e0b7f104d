//! A case, what is done with it, and the draft of one.

use super::fields::Layout;
use super::trips::Plan;

/// What is given to both sides: three slices, and the length of the fourth.
#[derive(Clone, Debug)]
pub struct Case {
    pub tariff: Vec<u8>,
    pub book: Vec<u8>,
    pub trip: Vec<u8>,
    /// Bytes of the statement slice.
    pub room: usize,
    /// How it was made, for whoever reads about a difference.
    pub story: Vec<&'static str>,
}

/// What is asked of both sides.
#[derive(Clone, Copy)]
pub enum Call<'a> {
    Settle,
    Quote,
    /// With this record instead of the statement.
    Post(&'a [u8]),
}

impl Call<'_> {
    /// What was done where it was accepted.
    pub fn done(self) -> &'static str {
        match self {
            Call::Settle => "settled",
            Call::Quote => "quoted",
            Call::Post(_) => "posted",
        }
    }

    /// What the fourth slice is.
    pub fn fourth(self) -> &'static str {
        match self {
            Call::Settle | Call::Quote => "statement",
            Call::Post(_) => "record",
        }
    }
}

/// A case together with what it was made of, before any damage.
#[derive(Clone, Debug)]
pub struct Draft {
    pub case: Case,
    /// Of each edition of the tariff.
    pub layouts: Vec<Layout>,
    /// The number of the edition under which the trip is settled, from 1; before the first one that is 1.
    pub edition: usize,
    pub plan: Plan,
    /// In how many parts the trip is charged.
    pub parts: usize,
}

impl Draft {
    /// Of the edition under which the trip is settled.
    pub fn layout(&self) -> &Layout {
        &self.layouts[self.edition - 1]
    }

    /// How many areas each edition has.
    pub fn areas(&self) -> Vec<usize> {
        self.layouts.iter().map(|layout| layout.areas).collect()
    }

    /// The bytes of the charge records.
    pub fn statement_bytes(&self) -> usize {
        self.parts * self.plan.record_bytes()
    }
}
