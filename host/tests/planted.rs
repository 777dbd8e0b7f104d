//! The differential test finds each planted error and tells it, and does not end for any other reason.

use std::process::Command;

/// Whether the program succeeds, and all that it says.
fn planted(name: &str) -> (bool, String) {
    let output = Command::new(env!("CARGO_BIN_EXE_planted")).arg(name).output().expect("a run");
    let text = [output.stdout, output.stderr].concat();
    (output.status.success(), String::from_utf8(text).expect("a text"))
}

/// Each planted error, and words of the difference that it makes.
const FOUND: [(&str, &str); 75] = [
    ("refusal_12_writes_the_book", "the copy refused, and changed the book"),
    ("stops_before_10", "by the model: refused 10 at 0 (before the last check-out)\n  by the copy: refused 7 at 0"),
    ("rounding_once_at_the_end", "of the statement is"),
    ("price_added_above", "words of the book differ"),
    ("broken_at_the_factor", "the answer differs"),
    ("last_of_equals", "of the statement is"),
    ("second_part_with_the_duration", "of the statement is"),
    ("first_class_compared", "of the statement is"),
    ("child_reduced_after_the_ticket", "of the statement is"),
    ("towns_ticket_compared", "of the statement is"),
    ("payments_credited", "of the statement is"),
    ("town_after_11", "by the model: refused 6 at 0 (trip counts)\n  by the copy: refused 11 at 0"),
    ("offset_added", "words of the book differ"),
    ("narrowest_of_equals", "of the statement is"),
    ("named_at_the_whole_price", "of the statement is"),
    ("posting_compares_the_length", "by the model: refused 13 at 0 (not the present quote)\n  by the copy: accepted"),
    ("posting_refuses_by_12", "by the model: refused 13 at 0 (not the present quote)\n  by the copy: refused 12"),
    ("refusal_13_writes_the_book", "the copy refused, and changed the book"),
    ("charge_alone_compared", "by the model: refused 16 at 0 (record value)\n  by the copy: accepted"),
    ("kind_4_of_32_charges", "by the model: refused 15 at 0 (record misshapen)\n  by the copy: refused 16"),
    ("fields_before_the_record", "\n  by the copy: refused 12"),
    ("no_cap_told_as_area_0", "of the fields is ff by the model, 00 by the copy"),
    ("mistap_of_3_minutes", "\n  by the copy: refused 17 at 0 (mistap)"),
    ("mistap_by_first_and_last_stop", "\n  by the copy: refused 17 at 0 (mistap)"),
    ("mistap_by_points", "\n  by the copy: refused 17 at 0 (mistap)"),
    ("mistap_after_10", "by the model: refused 17 at 0 (mistap)\n  by the copy: refused 10 at 0"),
    ("mistap_of_a_part", "\n  by the copy: refused 17 at 0 (mistap)"),
    ("edition_of_the_check_in", "difference"),
    ("edition_of_the_check_out", "difference"),
    ("edition_from_its_second_minute", "difference"),
    ("edition_of_the_last_window", "difference"),
    ("equal_dates", "by the model: refused 3 at"),
    ("third_edition", "by the model: refused 2 at"),
    ("opening_before_the_factor_records", "by the model: refused 2 at"),
    ("bicycles_by_the_last_edition", "(book not sound)"),
    ("book_without_an_edition", "by the model: refused 4 at 0 (book not sound)\n  by the copy: accepted"),
    (
        "no_edition_before_10",
        "by the model: refused 10 at 0 (before the last check-out)\n  by the copy: refused 22 at 0",
    ),
    ("no_edition_after_7", "by the model: refused 22 at 0 (before the first edition)\n  by the copy: refused 7 at 0"),
    ("closing_leaves_the_edition", "bytes of the page differ, first byte 5472 of place"),
    ("highest_free_place", "bytes of the page differ, first byte"),
    ("closing_clears_the_number_alone", "bytes of the page differ, first byte"),
    ("free_place_taken_for_fresh", "bytes of the page differ, first byte 4 of place"),
    ("neighbours_byte_written", "1 bytes of the page differ, first byte 4 of place"),
    ("doubled_number_overlooked", "by the model: refused 18 at 0"),
    ("free_by_its_first_byte", "bytes of the page differ, first byte"),
    (
        "full_page_before_the_member",
        "by the model: refused 19 at 0 (no such member, or there already)\n  by the copy: refused 20",
    ),
    ("page_before_the_tariff", "\n  by the copy: refused 18 at 0"),
    ("others_books_looked_at", "\n  by the copy: refused 4 at 0 (book not sound)"),
    ("doubled_in_the_other_half", "\n  by the copy: refused 18 at 0"),
    ("room_in_the_other_half", "by the model: refused 20 at 0 (no free place)\n  by the copy: accepted"),
    ("association_after_the_page", "by the model: refused 21 at 0 (no such association)\n  by the copy: refused 18"),
    ("other_half_written", "bytes of the page differ, first byte"),
    ("month_of_the_check_out", "of what is kept is"),
    ("month_by_the_local_clock", "of what is kept is"),
    ("first_record_collected_alone", "of what is due is"),
    ("later_month_goes_on", "of what is kept is"),
    ("nothing_due_keeps_the_month", "of what is kept is"),
    ("amount_lowered_with_the_ceiling", "of what is kept is"),
    ("ceiling_after_the_tariff", "by the model: refused 24 at 0"),
    ("room_for_what_is_due_first", "\n  by the copy: refused 12 at 0"),
    ("bicycle_under_a_childs_number", "of the differences is"),
    ("child_behind_the_last_adult", "of the differences is"),
    ("corrected_roll_on_the_old_book", "by the model: accepted"),
    ("old_sum_less_the_new_one", "of the differences is"),
    ("differences_of_32_bits", "of the differences is ff by the model, 00 by the copy"),
    ("record_counted_from_0", "by the model: refused 23 at 0"),
    ("number_of_two_bytes", "by the model: refused 23 at 0"),
    ("torn_record_exchanged", "by the model: refused 23 at 0"),
    ("cancelled_roll_ends_there", "difference"),
    ("replacement_cut_to_its_first_record", "difference"),
    ("correction_after_the_tariff", "by the model: refused 23 at 0"),
    ("differences_before_the_tariff", "\n  by the copy: refused 12 at 0"),
    ("refused_correction_writes_statements", "the copy refused, and changed the statements"),
    ("differences_behind_the_last", "of the differences is"),
    ("reads_past_the_trip", "signal 11 instead of an answer"),
];

/// Every second of them from one on, so that two tests share the work.
fn found_from(first: usize) {
    for (name, words) in FOUND.into_iter().skip(first).step_by(2) {
        let (well, text) = planted(name);
        assert!(!well, "{name} was not found");
        assert!(text.contains("\ndifference") && text.contains(words), "{name} ended with\n{text}");
    }
}

#[test]
fn each_planted_error_is_found() {
    found_from(0);
}

#[test]
fn and_each_of_the_others() {
    found_from(1);
}

#[test]
fn each_is_tried() {
    let (_, text) = planted("all");
    let names = text.split_once("names: ").expect("the names").1.split_whitespace();
    let tried = FOUND.map(|(name, _)| name);
    assert!(names.clone().all(|name| name == "none" || tried.contains(&name)), "{text}");
    assert_eq!(names.count(), tried.len() + 1);
}
