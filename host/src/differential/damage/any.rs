//! Damage that looks at no rule.

use crate::differential::cases::Draft;
use crate::differential::random::Random;

/// One to three bits of the tariff, the book or the trip.
pub fn flipped_bits(random: &mut Random, draft: &mut Draft) {
    for _ in 0..random.within(1, 3) {
        let bytes = some_slice(random, draft);
        if !bytes.is_empty() {
            let place = random.index(bytes.len());
            bytes[place] ^= 1 << random.below(8);
        }
    }
}

/// The tariff, the book or the trip cut anywhere, or with some bytes more, or with some left out of its middle.
pub fn cut_or_longer(random: &mut Random, draft: &mut Draft) {
    let bytes = some_slice(random, draft);
    let place = random.index(bytes.len() + 1);
    let many = random.pick(&[1, 1, 2, 3, 4, 13, 29, 64]);
    match random.below(3) {
        0 => bytes.truncate(place),
        1 => bytes.resize(bytes.len() + many, random.next() as u8),
        _ => drop(bytes.drain(place..(place + many).min(bytes.len()))),
    }
}

/// The tariff, the book or the trip replaced by random bytes, few or many.
pub fn nonsense(random: &mut Random, draft: &mut Draft) {
    let length = match random.below(10) {
        0 => 0,
        1..4 => random.index(8),
        4..9 => random.index(100),
        _ => random.index(20_000),
    };
    let bytes = some_slice(random, draft);
    bytes.clear();
    bytes.extend((0..length).map(|_| random.next() as u8));
}

/// Mostly the trip, which is short.
fn some_slice<'a>(random: &mut Random, draft: &'a mut Draft) -> &'a mut Vec<u8> {
    match random.below(4) {
        0 => &mut draft.case.tariff,
        1 => &mut draft.case.book,
        _ => &mut draft.case.trip,
    }
}
