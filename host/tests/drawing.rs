//! CONTRIBUTING.md has every crate: docs/crates.svg, which it shows, is what crates.txt gives, and so is its table of crates.

use milecopper_host::drawing::drawing_of;
use std::collections::BTreeSet;
use std::path::Path;

fn drawn(crates: &str) -> String {
    let root = Path::new(env!("CARGO_MANIFEST_DIR")).join("..");
    drawing_of(crates, &|name| root.join("crates").join(name).join("src/main.rt").exists())
}

#[test]
fn the_drawing_is_up_to_date() {
    let there = include_str!("../../docs/crates.svg");
    assert!(there == drawn(include_str!("../../crates.txt")), "docs/crates.svg is out of date: run host/pictures");
}

/// Of three crates, each of which uses those before it, the line from the last to the first is left out.
#[test]
fn a_line_that_follows_from_others_is_left_out() {
    let drawing = drawn("# a comment\nunits:\ncalendar: units io\ntrip: units calendar\n");
    assert_eq!([drawing.matches("<path").count(), drawing.matches("<text").count()], [2, 3]);
    let twice = drawn("units:\nwire:\nlayout: units wire\n");
    assert_eq!([twice.matches("<path").count(), twice.matches("<text").count()], [2, 3]);
    let static_library = drawn("units:\nfor_c staticlib: units\n");
    assert_eq!([static_library.matches("<path").count(), static_library.matches(">for_c<").count()], [1, 1]);
}

#[test]
fn the_table_has_every_crate() {
    let page = include_str!("../../CONTRIBUTING.md");
    let table = page.split("\n| crate | holds |\n").nth(1).expect("the table of crates");
    let rows = table.lines().take_while(|line| line.starts_with('|')).filter_map(|line| line.strip_prefix("| `"));
    let told: BTreeSet<&str> = rows.filter_map(|row| row.split('`').next()).collect();
    let crates = include_str!("../../crates.txt").lines().filter(|line| !line.starts_with('#'));
    let due: BTreeSet<&str> = crates.filter_map(|line| line.split([' ', ':']).next()).collect();
    let apart: Vec<&&str> = due.symmetric_difference(&told).collect();
    assert!(apart.is_empty(), "only one of crates.txt and CONTRIBUTING.md has these crates: {apart:?}");
}
