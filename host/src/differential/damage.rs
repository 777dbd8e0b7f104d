//! Cases that may be refused: one damage for each refusal and some that may end in any, each just outside what is
//! allowed, and at times just inside it.

mod any;
mod tariff;
mod trip;

use super::books::{self, named_edition, set_word, word, LAST_CHECK_OUT, OPENING, TRIPS};
use super::cases::Draft;
use super::fields::{
    Field, Layout, FACTOR, FACTOR_FIELDS, OPENING as OPENING_BYTES, OPENING_FIELDS, STOP, STOP_FIELDS,
};
use super::random::Random;

/// A way to damage a case, and what to call it.
pub type Damage = (&'static str, fn(&mut Random, &mut Draft));

/// In the order of the refusals that they aim at; the last three may end in any.
pub const DAMAGES: [Damage; 25] = [
    ("the tariff's frames", tariff::frames),
    ("the tariff's shape", tariff::shape),
    ("the tariff's factor records", tariff::factors),
    ("a tariff's value", tariff::value),
    ("a tariff's value", tariff::value),
    ("an area of the other kind", tariff::other_kind),
    ("the editions' openings", tariff::openings),
    ("the editions' dates", tariff::dates),
    ("an unsound book", unsound_book),
    ("a sound book at the edges", edge_book),
    ("a sound book at the edges", edge_book),
    ("the trip's shape", trip::shape),
    ("the trip's counts", trip::counts),
    ("the trip's stops", trip::stops),
    ("the trip's stamps", trip::stamps),
    ("the trip's duration", trip::duration),
    ("a short trip at one stop or point", trip::at_one_point),
    ("the last check-out", last_check_out),
    ("no edition yet", no_edition_yet),
    ("the trips in the window", trips_in_the_window),
    ("the statement's length", statement_length),
    ("the statement's length", statement_length),
    ("flipped bits", any::flipped_bits),
    ("cut or with more bytes", any::cut_or_longer),
    ("bytes without sense", any::nonsense),
];

/// One damage, and at times another one, so that the order of the refusals is seen.
pub fn damage(random: &mut Random, draft: &mut Draft) {
    loop {
        let (name, make) = random.pick(&DAMAGES);
        make(random, draft);
        draft.case.story.push(name);
        if !random.chance(25) {
            break;
        }
    }
}

fn unsound_book(random: &mut Random, draft: &mut Draft) {
    if random.chance(50) {
        edge_book(random, draft);
    }
    let areas = draft.areas();
    books::spoil(random, &mut draft.case.book, &areas);
}

fn edge_book(random: &mut Random, draft: &mut Draft) {
    draft.case.book = books::sound_at_the_edges(random, &draft.areas(), draft.plan.check_in);
}

/// The book's last check-out at the trip's check-in, or a minute or more after it.
fn last_check_out(random: &mut Random, draft: &mut Draft) {
    let last = draft.plan.check_in + random.pick(&[0, 1, 1, 1, 2, 30, 1_440]);
    let book = &mut draft.case.book;
    let trips = word(book, TRIPS).max(1);
    set_word(book, TRIPS, trips);
    named_edition(book, draft.edition);
    set_word(book, OPENING, last.saturating_sub(random.pick(&[0, 1, 1_000, 1_440])));
    set_word(book, LAST_CHECK_OUT, last);
}

/// The window has 254 to 256 trips; the trip ends before it does, with it, or after it.
fn trips_in_the_window(random: &mut Random, draft: &mut Draft) {
    let opening = match random.below(4) {
        0 => (draft.plan.check_out + random.below(3)).saturating_sub(1_441),
        _ => draft.plan.check_in.saturating_sub(random.below(600)),
    };
    let book = &mut draft.case.book;
    named_edition(book, draft.edition);
    set_word(book, TRIPS, random.pick(&[254, 255, 255, 256, 256, 256]));
    set_word(book, OPENING, opening.min(draft.plan.check_in));
    set_word(book, LAST_CHECK_OUT, draft.plan.check_in.min(opening + 1_440));
}

/// The first edition begins on the day after the check-in, on the same day, or later; and mostly the trip opens a window.
fn no_edition_yet(random: &mut Random, draft: &mut Draft) {
    let today = draft.plan.check_in / 1_440;
    tariff::put_date(draft, 0, today + random.pick(&[0, 1, 1, 1, 1, 2, 400]));
    tariff::put_date(draft, 1, today + random.pick(&[3, 500, 600]));
    if random.chance(70) {
        draft.case.book = books::fresh();
    }
}

/// Every length near that of the records or of one of them, and some others.
fn statement_length(random: &mut Random, draft: &mut Draft) {
    let due = if random.chance(50) { draft.plan.record_bytes() } else { draft.statement_bytes() };
    draft.case.room = match random.below(10) {
        0..4 => due - 1,
        4..8 => (due + random.index(9)).saturating_sub(6),
        8 => random.index(due),
        _ => random.index(300),
    };
}

/// Some edition of the tariff as it was made, mostly that of the trip.
fn some_layout(random: &mut Random, draft: &Draft) -> Layout {
    if random.chance(60) {
        draft.layout().clone()
    } else {
        draft.layouts[random.index(draft.layouts.len())].clone()
    }
}

/// A record of the tariff as it was made: its offset, its bytes, its fields.
fn some_record(random: &mut Random, draft: &Draft) -> (usize, usize, &'static [Field]) {
    let layout = &some_layout(random, draft);
    match random.below(11) {
        10 => (layout.opening, OPENING_BYTES, &OPENING_FIELDS),
        0..2 => (layout.factor(random.index(layout.factors)), FACTOR, &FACTOR_FIELDS),
        2..5 if layout.stops > 0 => (layout.stop(random.index(layout.stops)), STOP, &STOP_FIELDS),
        _ => {
            let area = random.index(layout.areas);
            (layout.area(area), layout.area_size(area), layout.area_fields(area))
        }
    }
}
