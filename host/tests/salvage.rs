//! Torn rolls by the plain implementation: the example of docs/RULES.md, and what is said of every roll there.

use milecopper_host::model::salvage::{printed, salvage, LONGEST_ROLL};

const SAMPLE: &[u8] = include_bytes!("../../samples/roll.bin");

#[test]
fn the_example_of_the_rules() {
    let trip = &SAMPLE[..28];
    let roll = [b"x", trip, &[30, 0, 9, 0], trip].concat();
    let found = salvage(&roll);
    assert_eq!(printed(&found), "0 1\n29 4\n");
    assert_eq!(found.expect("it is short").kept, [trip, trip].concat());
}

#[test]
fn rolls_that_are_too_long() {
    assert_eq!(printed(&salvage(&vec![0; LONGEST_ROLL + 1])), "too long\n");
    assert_eq!(printed(&salvage(&vec![0; LONGEST_ROLL])), "0 60000\n");
    assert_eq!(printed(&salvage(&[])), "");
}

#[test]
fn cut_anywhere_the_lengths_add_up_and_what_was_kept_is_kept() {
    for place in 0..SAMPLE.len() {
        for roll in [&SAMPLE[place..], &SAMPLE[..place]] {
            let found = salvage(roll).expect("it is short");
            let dropped: usize = found.dropped.iter().map(|(_, length)| length).sum();
            assert_eq!(found.kept.len() + dropped, roll.len());
            let again = salvage(&found.kept).expect("it is short");
            assert_eq!((again.kept, again.dropped), (found.kept, vec![]));
        }
    }
}
