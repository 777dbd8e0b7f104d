//! Tests of the maker.

use super::cases::{cases_of, rolls_of, sections_of, Content, Sort, Variant};
use super::compare::difference;
use super::encoding::text_of;
use super::*;

fn bytes(text: &str) -> Vec<u8> {
    bytes_of(text).unwrap_or_else(|fault| panic!("{fault}"))
}

/// The fault of a text, as it is told.
fn fault(text: &str) -> String {
    bytes_of(text).expect_err("a fault").to_string()
}

fn case_fault(text: &str) -> String {
    cases_of(text).expect_err("a fault").to_string()
}

#[test]
fn an_area() {
    let area =
        "area city parent 3 base 258 km 772 valid 1286 first 7 child 8 cap levels 2569 11 12 13 14 day 15 bike 16";
    let body = [2, 3, 2, 1, 4, 3, 6, 5, 7, 8, 2, 9, 10, 11, 0, 12, 0, 13, 0, 14, 0, 15, 0, 16, 0];
    assert_eq!(bytes(area), [&[27, 0, 1, 0][..], &body[..]].concat());
}

#[test]
fn levels_and_caps_of_an_area() {
    let area = |level, cap, day| {
        bytes(&format!("area {level} parent 0 base 0 km 0 valid 0 first 0 child 0 cap {cap} day {day} bike 0"))
    };
    for (level, byte) in [("state", 0), ("region", 1), ("city", 2), ("0", 0), ("255", 255)] {
        assert_eq!(area(level, "none", "0")[4], byte);
    }
    for (cap, sort_and_fields) in [
        ("none", [0, 0, 0, 0, 0, 0, 0, 0, 0, 0, 0]),
        ("flat 230 90", [1, 230, 0, 90, 0, 0, 0, 0, 0, 0, 0]),
        ("levels 1 2 3 4 65535", [2, 1, 0, 2, 0, 3, 0, 4, 0, 255, 255]),
    ] {
        assert_eq!(area("state", cap, "0")[14..25], sort_and_fields);
    }
    assert_eq!(area("state", "none", "none")[25..27], [255, 255]);
    assert_eq!(area("state", "none", "60001")[25..27], [0x61, 0xea]);
}

#[test]
fn an_area_of_kind_8() {
    let area = "city parent 7 base 141 km 27 valid 180 first 50 child 50 cap levels 1 2 3 4 5 day none bike 347";
    let body = |tickets, town| bytes(&format!("aachen {area} tickets {tickets} trip 228 town {town}"));
    for (tickets, fields) in [
        ("none", [0, 0, 0, 0, 0, 0, 0, 0, 0, 0]),
        ("flat 160", [160, 0, 0, 0, 0, 0, 0, 0, 0, 0]),
        ("levels 1 2 3 4 65535", [1, 0, 2, 0, 3, 0, 4, 0, 255, 255]),
    ] {
        for (town, mark) in [("none", 0), ("base", 1), ("km", 2), ("0", 0), ("255", 255)] {
            let common = &bytes(&format!("area {area}"))[4..];
            assert_eq!(body(tickets, town), [&[40, 0, 8, 0], common, &fields[..], &[228, 0, mark]].concat());
        }
    }
}

#[test]
fn a_factor() {
    assert_eq!(bytes("factor 3 mark 1"), [4, 0, 5, 0, 3, 1]);
    assert_eq!(bytes("factor 255 mark 255"), [4, 0, 5, 0, 255, 255]);
}

#[test]
fn a_stop() {
    assert_eq!(bytes("stop 2 300000 4294967295"), [11, 0, 2, 0, 2, 0xe0, 0x93, 4, 0, 255, 255, 255, 255]);
}

#[test]
fn a_trip() {
    let trip =
        "trip 2000-12-31T22:00+01:00 to 2001-07-02T23:59+02:00 class 1 level B adults 2 children 3 bikes 4 stops 5 256";
    let body = [0xd0, 7, 12, 31, 22, 0, 1, 0xd1, 7, 7, 2, 23, 59, 2, 1, 3, 2, 3, 4, 2, 5, 0, 0, 1];
    assert_eq!(bytes(trip), [&[26, 0, 7, 0][..], &body[..]].concat());
}

#[test]
fn levels_of_a_trip() {
    for (level, byte) in [("0", 0), ("K", 1), ("A", 2), ("B", 3), ("C", 4), ("D", 5), ("6", 6), ("255", 255)] {
        let trip =
            format!("trip 0-0-0T0:0+0:00 to 0-0-0T0:0+0:00 class 0 level {level} adults 0 children 0 bikes 0 stops");
        assert_eq!(bytes(&trip)[19], byte);
    }
}

#[test]
fn numbers_out_of_range_can_be_written() {
    let trip = "trip 65535-255-255T255:255+255:00 to 0-0-0T0:0+00:00 class 255 level 255 adults 255 children 255 bikes 255 stops";
    assert_eq!(bytes(trip), [[22, 0, 7, 0].as_slice(), &[255; 7], &[0; 7], &[255; 5], &[0]].concat());
}

#[test]
fn raw_records_and_bytes() {
    assert_eq!(bytes("record 9"), [2, 0, 9, 0]);
    assert_eq!(bytes("record 65535 0a0B ff"), [5, 0, 255, 255, 10, 11, 255]);
    assert_eq!(bytes("bytes 01 0203"), [1, 2, 3]);
    assert_eq!(bytes("bytes"), []);
}

#[test]
fn comments_and_blank_lines_are_ignored() {
    assert_eq!(bytes(""), []);
    assert_eq!(bytes("# a comment\n\n  \t\n   # another\n"), []);
    assert_eq!(bytes("  bytes   01 # one\nbytes 02# two\r\n#bytes 03\nbytes 04"), [1, 2, 4]);
}

#[test]
fn repeat_writes_the_next_record_many_times() {
    assert_eq!(bytes("repeat 3\nbytes 01 02\nbytes 03"), [1, 2, 1, 2, 1, 2, 3]);
    assert_eq!(bytes("repeat 2\n\n# between\nrecord 9"), [2, 0, 9, 0, 2, 0, 9, 0]);
    assert_eq!(bytes("repeat 0\nrecord 9"), []);
    assert_eq!(bytes("repeat 65536\nbytes 00 00").len(), 131_072);
}

#[test]
fn faults_name_their_line() {
    let trip = "trip 2000-1-1T1:00+1:00 to 2000-1-1T1:01+1:00 class 2 level 0 adults 0 children 0 bikes 0 stops 0 1";
    let form = "is not of the form 2026-10-25T02:50+02:00, in whole hours ahead of UTC";
    for (text, told) in [
        ("area", "line 1: the area's level is missing"),
        ("\n\nroute 1", "line 3: 'route' is no sort of line"),
        ("# x\narea state base 1", "line 2: the word 'parent' is due, not 'base'"),
        ("area state parent", "line 1: parent is missing"),
        ("area land", "line 1: the area's level 'land' is not a number"),
        ("area state parent 256", "line 1: parent 256 does not fit in 1 byte"),
        ("area state parent 0 base 65536", "line 1: base 65536 does not fit in 2 bytes"),
        ("area state parent 0 base -1", "line 1: base '-1' is not a number"),
        ("area state parent 0 base +1", "line 1: base '+1' is not a number"),
        ("factor 256 mark 0", "line 1: the factor 256 does not fit in 1 byte"),
        ("factor 3 1", "line 1: the word 'mark' is due, not '1'"),
        ("stop 0 0", "line 1: y is missing"),
        ("stop 0 0 4294967296", "line 1: y 4294967296 does not fit in 4 bytes"),
        ("stop 0 99999999999999999999 0", "line 1: x '99999999999999999999' is not a number"),
        ("stop 0 0 0 0", "line 1: '0' is one word too many"),
        ("trip 2000-1T0:00+01:00", "line 1: the date '2000-1' does not have 3 parts"),
        ("trip 2000-1-1T0:00:00+01:00", "line 1: the clock time '0:00:00' does not have 2 parts"),
        ("trip 2000-1-1T0:00+256:00", "line 1: the offset 256 does not fit in 1 byte"),
        ("trip 2000-1-1T0:00+:00", "line 1: the offset '' is not a number"),
        ("trip", "line 1: the time is missing"),
        ("record x", "line 1: the kind 'x' is not a number"),
        ("record 65536", "line 1: the kind 65536 does not fit in 2 bytes"),
        ("bytes 123", "line 1: '123' is not hexadecimal, two digits a byte"),
        ("bytes 0x", "line 1: '0x' is not hexadecimal, two digits a byte"),
        ("repeat 2", "line 1: a repeat without a record after it"),
        ("repeat 2\nrepeat 2\nbytes 00", "line 2: a repeat after a repeat"),
        ("repeat 1000001\nbytes 00", "line 1: 1000001 times are too many"),
        ("tariff:", "line 1: 'tariff:' is no sort of line"),
    ] {
        assert_eq!(fault(text), told);
    }
    for time in
        ["2026-10-31", "2026-10-31T20:10", "2026-10-31T20:10Z", "2026-10-31T20:10-01:00", "2026-10-31T20:10+01:30"]
    {
        assert_eq!(fault(&format!("#\ntrip {time} 20:10 to")), format!("line 2: the time '{time}' {form}"));
    }
    assert_eq!(fault(&trip.replace("level 0", "level E")), "line 1: the ticket level 'E' is not a number");
    assert_eq!(fault(&format!("{trip}{}", " 0".repeat(254))), "line 1: the number of stops 256 does not fit in 1 byte");
    let area = "area state parent 0 base 0 km 0 valid 0 first 0 child 0 cap";
    assert_eq!(fault(&format!("{area} some")), "line 1: 'some' is no sort of trip cap: none, flat or levels");
    assert_eq!(fault(&format!("{area} levels 1 2")), "line 1: the amount of level B is missing");
    let aachen = format!("{} none day 0 bike 0", area.replace("area", "aachen"));
    for (rest, told) in [
        ("", "line 1: the word 'tickets' is missing"),
        ("tickets some", "line 1: 'some' is no sort of child tickets: none, flat or levels"),
        ("tickets levels 1 2", "line 1: the amount of level B is missing"),
        ("tickets flat 65536", "line 1: the child ticket 65536 does not fit in 2 bytes"),
        ("tickets none town 0", "line 1: the word 'trip' is due, not 'town'"),
        ("tickets none trip 0 town", "line 1: what the town drops is missing"),
        ("tickets none trip 0 town all", "line 1: what the town drops 'all' is not a number"),
    ] {
        assert_eq!(fault(&format!("{aachen} {rest}")), told);
    }
    assert_eq!(
        fault(&format!("record 1 {}", "00".repeat(65_534))),
        "line 1: a body of 65534 bytes is too long for a record"
    );
}

// ---- Values that are checked.

const GOOD_TRIP: &str =
    "trip 2026-10-25T02:50+02:00 to 2026-10-25T02:10+01:00 class 2 level K adults 0 children 0 bikes 0 stops 0 27";

/// The mistakes of a text that is checked; its tariff has 28 stops.
fn mistakes(text: &str) -> Vec<String> {
    let stops_of = |name: &str| if name == "t" { Ok(28) } else { Err(format!("no tariff {name}")) };
    let faults = checked_bytes_of(text, &stops_of).err().unwrap_or_default();
    faults.iter().map(Fault::to_string).collect()
}

/// The mistakes of a trip with something replaced.
fn trip_mistakes(from: &str, to: &str) -> Vec<String> {
    assert_eq!(GOOD_TRIP.matches(from).count(), 1);
    mistakes(&format!("tariff t\n{}", GOOD_TRIP.replace(from, to)))
}

#[test]
fn a_checked_text_gives_the_bytes_of_a_raw_one() {
    for text in [include_str!("../../../samples/tariff.txt"), include_str!("../../../samples/roll.txt")] {
        assert_eq!(checked_bytes_of(text, &|_| Ok(28)), Ok(bytes(text)));
    }
}

#[test]
fn wrong_values_of_a_trip_are_told() {
    for (from, to, told) in [
        (
            "to 2026-10-25T02:10+01:00",
            "to 2026-10-25T24:00+01:00",
            "check-out 2026-10-25T24:00+01:00: 24:00 is 00:00 of the next day",
        ),
        (
            "2026-10-25T02:50+02:00 to",
            "2026-02-30T02:50+02:00 to",
            "check-in 2026-02-30T02:50+02:00: February 2026 has 28 days, and no day 30",
        ),
        (
            "2026-10-25T02:50+02:00 to",
            "2028-02-30T02:50+02:00 to",
            "check-in 2028-02-30T02:50+02:00: February 2028 has 29 days, and no day 30",
        ),
        (
            "2026-10-25T02:50",
            "2026-10-00T02:50",
            "check-in 2026-10-00T02:50+02:00: October 2026 has 31 days, and no day 0",
        ),
        ("2026-10-25T02:50", "2026-13-25T02:50", "check-in 2026-13-25T02:50+02:00: the month is 1 to 12"),
        ("2026-10-25T02:50", "2100-10-25T02:50", "check-in 2100-10-25T02:50+02:00: the year is 2000 to 2099"),
        ("2026-10-25T02:50", "2026-10-25T02:60", "check-in 2026-10-25T02:60+02:00: the clock goes from 00:00 to 23:59"),
        (
            "T02:50+02:00",
            "T02:50+00:00",
            "check-in 2026-10-25T02:50+00:00: +00:00 is neither winter time, +01:00, nor summer time, +02:00",
        ),
        (
            "2026-10-25T02:50+02:00",
            "2000-01-01T01:59+02:00",
            "check-in 2000-01-01T01:59+02:00: this is before 2000 began in UTC",
        ),
        ("T02:10+01:00", "T02:10+02:00", "the trip ends 40 minutes before it begins"),
        (
            "to 2026-10-25T02:10+01:00",
            "to 2026-10-26T01:51+01:00",
            "the trip lasts 1,441 minutes, and 1,440 are the most",
        ),
        ("class 2", "class 3", "class 3 is not allowed, only 1 or 2"),
        ("class 2", "class two", "class 'two' is not a number"),
        ("level K", "level E", "'E' is no ticket level: 0 for none, K, A, B, C or D"),
        ("level K", "level 6", "the ticket level 6 is not allowed, only 0 to 5"),
        ("adults 0", "adults 11", "adults 11 is not allowed, only 0 to 10"),
        ("children 0", "children 70000", "children 70,000 is not allowed, only 0 to 10"),
        ("bikes 0", "bikes 11", "bikes 11 is not allowed, only 0 to 10"),
        ("stops 0 27", "stops 0", "the number of stops 1 is not allowed, only 2 to 32"),
        ("stops 0 27", "stops 0 28", "there is no stop 28: the tariff's are 0 to 27"),
    ] {
        assert_eq!(trip_mistakes(from, to), [format!("line 2: {told}")]);
    }
    assert_eq!(trip_mistakes("class 2", "class 2"), [""; 0]);
    assert_eq!(
        mistakes(GOOD_TRIP),
        ["line 1: the tariff with the stops is not named: a line 'tariff FILE' is due before the first trip"]
    );
    assert_eq!(mistakes(&format!("tariff u\n{GOOD_TRIP}")), ["line 1: no tariff u"]);
}

#[test]
fn all_mistakes_are_told_at_once() {
    let text = "tariff t
trip 2026-02-30T24:00+02:00 to 2026-03-01T12:00+01:00 class 3 level 0 adults 11 children 0 bikes 0 stops 0 99 100
route
record 9
trip 2026-03-01T12:00+01:00 to 2026-03-01T12:10+01:00 klass 2
repeat 2
trip 2026-03-01T12:00+01:00 to 2026-03-01T12:10+01:00 class 0 level 0 adults 0 children 0 bikes 0 stops 0 1
repeat 2";
    let due = [
        "line 2: check-in 2026-02-30T24:00+02:00: February 2026 has 28 days, and no day 30",
        "line 2: check-in 2026-02-30T24:00+02:00: 24:00 is 00:00 of the next day",
        "line 2: class 3 is not allowed, only 1 or 2",
        "line 2: adults 11 is not allowed, only 0 to 10",
        "line 2: there is no stop 99: the tariff's are 0 to 27",
        "line 2: there is no stop 100: the tariff's are 0 to 27",
        "line 3: 'route' is no sort of line",
        "line 4: 'record' writes any bytes, which only 'make_bytes --raw' does",
        "line 5: the word 'class' is due, not 'klass'",
        "line 7: class 0 is not allowed, only 1 or 2",
        "line 8: a repeat without a record after it",
    ];
    assert_eq!(mistakes(text), due);
    let raw = raw_bytes_of("route\nstop 0 0\nrecord x").expect_err("mistakes");
    assert_eq!(raw.iter().map(|fault| fault.line).collect::<Vec<usize>>(), [1, 2, 3]);
}

/// Those of a text behind an edition's opening, whose line is not counted.
fn mistakes_in_an_edition(text: &str) -> Vec<String> {
    let told = mistakes(&format!("edition 2000-01-01\n{text}"));
    let line_less = |told: &String| {
        let (line, rest) = told.strip_prefix("line ").and_then(|told| told.split_once(':')).expect("a line");
        format!("line {}:{rest}", line.parse::<usize>().expect("its number") - 1)
    };
    told.iter().map(line_less).collect()
}

#[test]
fn mistakes_of_areas_of_kind_8_are_told() {
    let state = "area state parent 0 base 180 km 28 valid 360 first 50 child 50 cap none day 3000 bike 300\n";
    let common = "base 141 km 27 valid 180 first 50 child 50";
    let region =
        format!("aachen region parent 0 {common} cap none day 2060 bike 347 tickets none trip 228 town none\n");
    let city =
        format!("aachen city parent 1 {common} cap flat 320 60 day none bike 347 tickets flat 160 trip 228 town km\n");
    let factors = "factor 3 mark 0\n".repeat(2);
    let well = [state, &region, &city, &factors].concat();
    assert_eq!(mistakes_in_an_edition(&well), [""; 0], "a region's cap is not compared with the state's flat");
    let common_city = format!("area city parent 1 {common} cap none day none bike 200\n");
    for (text, told) in [
        (
            well.replace("tickets flat 160", "tickets flat 60001"),
            "the child ticket 60,001 is not allowed, only 0 to 60,000",
        ),
        (
            well.replace("tickets flat 160", "tickets none"),
            "the child tickets are not of the trip cap's sort: none, flat or levels",
        ),
        (well.replace("trip 228 town km", "trip 60001 town km"), "trip 60,001 is not allowed, only 0 to 60,000"),
        (well.replace("town km", "town 3"), "what the town drops 3 is not allowed, only 0 to 2"),
        (well.replace("town km", "town all"), "'all' is nothing that a town drops: none, base or km"),
        (well.replacen("bike 347 tickets flat", "bike 348 tickets flat", 1), "bike 348 is above its parent's 347"),
        (
            [state, &region, &common_city, &factors].concat(),
            "a city is of its region's kind: area 1 is a line 'aachen'",
        ),
    ] {
        assert_eq!(mistakes_in_an_edition(&text), [format!("line 3: {told}")]);
    }
    let marked = well.replace("town none", "town base");
    assert_eq!(mistakes_in_an_edition(&marked), ["line 2: only a city is a town that drops something"]);
    let aachen_state = region.replace("region", "state") + "factor 3 mark 0\n";
    assert_eq!(mistakes_in_an_edition(&aachen_state), ["line 1: the state is a line 'area', not 'aachen'"]);
    let in_common = well.replace(&region, &state.replace("state", "region"));
    assert_eq!(mistakes_in_an_edition(&in_common), ["line 3: a city is of its region's kind: area 1 is a line 'area'"]);
}

#[test]
fn mistakes_of_a_tariff_are_told() {
    let state = "area state parent 0 base 180 km 28 valid 360 first 50 child 50 cap none day 3000 bike 500\n";
    let region = state.replace("state", "region");
    let city = state.replace("state parent 0", "city parent 1");
    let factor = "factor 3 mark 0\n";
    let stop = "stop 0 300000 200000\n";
    let well = [state, &region, &city, factor, factor, stop].concat();
    assert_eq!(mistakes_in_an_edition(&well), [""; 0]);
    for (text, told) in [
        (
            well.replace("km 28", "km 1001").replacen("km 1001", "km 28", 2),
            "line 3: km 1,001 is not allowed, only 0 to 1,000",
        ),
        (format!("{region}{factor}"), "line 1: the first area has to be the state"),
        (format!("{state}{state}{factor}{factor}"), "line 2: a second state: the first area alone is the state"),
        (
            format!("{}{factor}", state.replace("parent 0", "parent 1")),
            "line 1: the state's parent is 0, the state itself",
        ),
        (
            format!("{state}{}{factor}{factor}", region.replace("parent 0", "parent 1")),
            "line 2: a region's parent is 0, the state",
        ),
        (format!("{state}{city}{factor}"), "line 2: a city's parent is a region before it, and area 1 is none"),
        (well.replacen("bike 500", "bike 499", 1), "line 2: bike 500 is above its parent's 499"),
        (
            format!("{state}{factor}{}{factor}", region),
            "line 3: an area behind a factor or a stop: all areas come first",
        ),
        (
            format!("{state}repeat 32\n{region}repeat 33\n{factor}"),
            "line 3: this is area 32, and a tariff has 32 at most, 0 to 31",
        ),
        (
            format!("{state}{region}{factor}{stop}"),
            "line 4: factors are missing: 2 are due, one for the state and one for each region, and 1 stand there",
        ),
        (
            format!("{state}{region}{factor}# the end\n"),
            "line 3: factors are missing: 2 are due, one for the state and one for each region, and 1 stand there",
        ),
        (format!("{state}{factor}{factor}"), "line 3: a factor too many: 1 are due, for the state and each region"),
        (format!("{state}{factor}{stop}{factor}"), "line 4: a factor behind a stop: all factors come before the stops"),
        (
            format!("{state}factor 3 mark 1"),
            "line 2: mark 1 is not allowed here: the first factor is the state's, and its mark is 0",
        ),
        (format!("{state}factor 10 mark 0"), "line 2: the factor 10 is not allowed, only 1 to 9"),
        (stop.to_string(), "line 1: a stop before any area"),
        (well.replace("stop 0", "stop 3"), "line 6: there is no area 3: areas are 0 to 2"),
        (well.replace("300000", "1000001"), "line 6: x 1,000,001 is not allowed, only 0 to 1,000,000"),
        (format!("{state}{factor}repeat 1001\n{stop}"), "line 4: this is stop 1000, and a tariff has 1,000 at most"),
        (
            format!("{}{factor}", state.replace("state", "land")),
            "line 1: 'land' is no level of an area: state, region or city",
        ),
        (
            format!("{}{factor}", state.replace("cap none", "cap flat 60001 90")),
            "line 1: the amount 60,001 is not allowed, only 0 to 60,000",
        ),
        (
            format!("{}{factor}", state.replace("day 3000", "day 65535")),
            "line 1: the day cap 65,535 is not allowed, only 0 to 60,000",
        ),
        (
            format!("{state}{factor}tariff t\n{GOOD_TRIP}"),
            "line 4: a trip in a tariff: trips stand in a text of their own",
        ),
    ] {
        assert_eq!(mistakes_in_an_edition(&text).first().map(String::as_str), Some(told), "{text}");
    }
    let among_trips = format!("tariff t\n{GOOD_TRIP}\n{state}{factor}");
    assert_eq!(mistakes(&among_trips)[0], "line 3: an area among trips: a tariff stands in a text of its own");
}

#[test]
fn editions() {
    assert_eq!(bytes("edition 2026-06-01"), [6, 0, 9, 0, 0xea, 7, 6, 1]);
    assert_eq!(bytes("edition 65535-255-0"), [6, 0, 9, 0, 255, 255, 255, 0]);
    assert_eq!(fault("edition 2026-06"), "line 1: the date '2026-06' does not have 3 parts");
    assert_eq!(fault("edition 2026-256-01"), "line 1: the month 256 does not fit in 1 byte");
    let state =
        "area state parent 0 base 180 km 28 valid 360 first 50 child 50 cap none day 3000 bike 500\nfactor 3 mark 0\n";
    let well = format!("edition 2000-01-01\n{state}stop 0 1 2\nedition 2026-06-01\n{state}");
    assert_eq!(mistakes(&well), [""; 0]);
    let area_alone = state.replace("factor 3 mark 0\n", "");
    for (text, told) in [
        (state.to_string(), "line 1: an area before any edition: a line 'edition DATE' comes first"),
        ("stop 0 1 2".to_string(), "line 1: a stop before any edition: a line 'edition DATE' comes first"),
        ("edition 2000-01-01\n\n".to_string(), "line 1: an edition without areas"),
        (well.replace("2000-01-01", "1999-12-31"), "line 1: edition 1999-12-31: the year is 2000 to 2099"),
        (well.replace("2026-06-01", "2026-13-01"), "line 5: edition 2026-13-01: the month is 1 to 12"),
        (well.replace("2026-06-01", "2026-06-31"), "line 5: edition 2026-06-31: June 2026 has 30 days, and no day 31"),
        (well.replace("2026-06-01", "2000-01-01"), "line 5: an edition's date is after that of the edition before"),
        (well.replace("2000-01-01", "2026-06-02"), "line 5: an edition's date is after that of the edition before"),
        (format!("{well}edition 2026-06-02\n{state}"), "line 8: this is edition 3, and a tariff has 2 at most"),
        (
            format!("edition 2000-01-01\n{area_alone}edition 2026-06-01\n{state}"),
            "line 3: factors are missing: 1 are due, one for the state and one for each region, and 0 stand there",
        ),
        (format!("edition 2000-01-01\nedition 2026-06-01\n{state}"), "line 2: an edition without areas"),
        (
            format!("tariff t\n{GOOD_TRIP}\nedition 2026-06-01\n{state}"),
            "line 3: an edition among trips: a tariff stands in a text of its own",
        ),
        (
            format!("edition 2026-06-01\ntariff t\n{GOOD_TRIP}"),
            "line 3: a trip in a tariff: trips stand in a text of their own",
        ),
    ] {
        assert_eq!(mistakes(&text).first().map(String::as_str), Some(told), "{text}");
    }
}

#[test]
fn encodings() {
    let told =
        |bytes: &[u8]| text_of(bytes).map_err(|faults| faults.iter().map(Fault::to_string).collect::<Vec<String>>());
    assert_eq!(told(b"\xef\xbb\xbfstop 1\r\n"), Ok("stop 1\r\n".to_string()));
    assert_eq!(told("# \u{e4}".as_bytes()), Ok("# \u{e4}".to_string()));
    let latin =
        |line| format!("line {line}: the byte e4 is not UTF-8, but Latin-1 or the like; save the text as UTF-8");
    assert_eq!(told(b"# \xe4\nstop\n\n# \xe4"), Err(vec![latin(1), latin(4)]));
    for mark in [b"\xff\xfes\0", b"\xfe\xff\0s"] {
        assert_eq!(told(mark), Err(vec!["line 1: this is UTF-16; save the text as UTF-8".to_string()]));
    }
    let zero = "line 2: there is a zero byte: this is UTF-16, or no text; save the text as UTF-8".to_string();
    assert_eq!(told(b"\ns\0t\0\n\0"), Err(vec![zero]));
}

#[test]
fn a_case_file() {
    let cases = cases_of(
        "# two sections with output, two without
tariff:
record 1 aa   # not a real area
repeat 2
record 2
= tariff  refused # 2
=
fresh:
price: # only priced
record 3 bb
  = 347

settle:
record 3 cc
bytes dd
",
    )
    .expect("a case file");
    let input = [
        &b"T"[..],
        &[13, 0, 0, 0, 3, 0, 1, 0, 0xaa, 2, 0, 2, 0, 2, 0, 2, 0],
        b"B",
        &[0, 0, 0, 0],
        b"P",
        &[5, 0, 0, 0, 3, 0, 3, 0, 0xbb],
        b"S",
        &[6, 0, 0, 0, 3, 0, 3, 0, 0xcc, 0xdd],
    ];
    assert_eq!(cases.input, input.concat());
    assert_eq!(cases.output, b"tariff  refused # 2\n\n347\n");
}

#[test]
fn sections_without_lines() {
    assert_eq!(cases_of("").expect("no case"), Default::default());
    assert_eq!(cases_of("tariff:\ntariff:").expect("two empty tariffs").input, b"T\0\0\0\0T\0\0\0\0");
    assert_eq!(cases_of("settle:\nbytes").expect("an empty trip").input, b"S\0\0\0\0");
}

#[test]
fn faults_of_a_case_file() {
    for (text, told) in [
        ("record 1", "line 1: a record outside a section"),
        ("= 1\ntariff:", "line 1: an expected line before any section"),
        ("tariff:\n= 1\nrecord 1", "line 3: a record outside a section"),
        ("tariffs:", "line 1: 'tariffs:' is no sort of section"),
        ("tariff:\nroute 1", "line 2: 'route' is no sort of line"),
        ("tariff:\nrepeat 2\n= 1", "line 2: a repeat without a record after it"),
        ("tariff:\nrepeat 2\nfresh:", "line 2: a repeat without a record after it"),
        ("tariff:\nrepeat 2", "line 2: a repeat without a record after it"),
        ("\nfresh:\nrecord 1", "line 2: fresh: takes no record"),
        ("price:\n= 1", "line 1: price: has no record"),
        ("settle:", "line 1: settle: has no record"),
        ("settle:\nrecord 3\nrecord 3", "line 1: settle: takes one record"),
        ("price:\nrepeat 2\nrecord 3", "line 1: price: takes one record"),
        ("but 1 -> 2 = 3", "line 1: a variant before any section"),
        ("settle:\nrecord 3\nbut record 3 -> record 4", "line 3: what is expected is missing"),
        ("settle:\nrecord 3\nbut record 3 = 3", "line 3: 'record 3' replaces nothing"),
        ("settle:\nrecord 3\nbut record 4 -> record 3 = 3", "line 3: 'record 4' does not stand there once"),
        ("settle:\nrecord 3 00 00\nbut 00 -> 01 = 3", "line 3: '00' does not stand there once"),
        ("settle:\nrecord 3\nthen record 3 -> route = 3", "line 3: 'route' is no sort of line"),
        ("settle:\nrecord 3\nbut record 3 -> record 4 = 3\nrecord 3", "line 4: a record outside a section"),
        ("settle:\nroom x\nrecord 3", "line 2: room 'x' is not a number"),
        ("post:\nquote halved\nrecord 3", "line 2: 'halved' makes nothing of a quote"),
        ("post:\nquote cut\nrecord 3", "line 2: the number of bytes is missing"),
        ("post:\nquote whole", "line 1: post: has no record"),
        ("post:\nroom 16\nrecord 3", "line 2: 'room' is no sort of line"),
        ("month:\nceiling x\nrecord 3", "line 2: ceiling 'x' is not a number"),
        ("month:\nkept 321\nrecord 3", "line 2: the amount is missing"),
        ("month:\nceiling 1", "line 1: month: has no record"),
        ("settle:\nceiling 1\nrecord 3", "line 2: 'ceiling' is no sort of line"),
        ("correct:\nnth x\nrecord 3", "line 2: nth 'x' is not a number"),
        ("correct:\nby route\nrecord 3", "line 2: 'route' is no sort of line"),
        ("roll:\nnth 1\nrecord 3", "line 2: 'nth' is no sort of line"),
        ("book:\nrecord 3", "line 2: 'record' is no line of a book"),
        ("book:\nword 1368 1", "line 2: a book has no word 1368"),
        ("book:\nword 3 7 7", "line 2: '7' is one word too many"),
        ("words:\nrecord 3", "line 1: words: takes no record"),
        // What only examples have.
        ("sample:", "line 1: sample: is not as the program knows it"),
        ("quote:\nrecord 3", "line 1: quote: is not as the program knows it"),
        ("settle:\nroom 16\nrecord 3", "line 1: settle: is not as the program knows it"),
        ("settle:\nrecord 3\nbut = 3", "line 1: settle: is not as the program knows it"),
    ] {
        assert_eq!(case_fault(text), told);
    }
}

#[test]
fn variants_of_a_section() {
    let text =
        "settle:\nroom 16\nrecord 3 07\n= refused 12 at 0\nbut 07 -> 08, room 16 -> room 17 = accepted # so\nthen = x";
    let [section] = &sections_of(text).expect("a case file")[..] else { panic!("one section") };
    assert_eq!((section.line, section.sort, section.expected[0].as_str()), (1, Sort::Settle, "refused 12 at 0"));
    assert_eq!(section.content, Content { bytes: vec![3, 0, 3, 0, 7], room: Some(16), ..Content::default() });
    let but = Content { bytes: vec![3, 0, 3, 0, 8], room: Some(17), ..Content::default() };
    let variant =
        |line, leaves_a_trace, content, end: &str| Variant { line, leaves_a_trace, content, end: end.to_string() };
    assert_eq!(section.variants, [variant(5, false, but, "accepted"), variant(6, true, section.content.clone(), "x")]);
}

#[test]
fn quotes_and_postings() {
    let all = ["whole", "cut 2", "longer 3", "off 1", "first", "second", "swapped"];
    let made: [&[u8]; 7] =
        [&[1, 2, 3, 4], &[1, 2], &[1, 2, 3, 4, 0, 0, 0], &[1, 3, 3, 4], &[1, 2], &[3, 4], &[3, 4, 1, 2]];
    for (words, record) in all.into_iter().zip(made) {
        let sections =
            sections_of(&format!("quote:\nroom 9\nrecord 3\npost:\nquote {words}\nrecord 3")).expect("a case file");
        assert_eq!(sections[0].content.room, Some(9));
        assert_eq!(sections[1].content.offered.bytes(&[1, 2, 3, 4]), record, "{words}");
    }
}

#[test]
fn months() {
    let text = "month:\nceiling 15000\nkept 321 258\ndue 3\nroom 9\nrecord 3\nmonth:\nkept length 7\nrecord 3";
    let [first, second] = &sections_of(text).expect("a case file")[..] else { panic!("two sections") };
    let Content { ceiling, kept, due, room, .. } = first.content.clone();
    assert_eq!((ceiling, kept, due, room), (15_000, Some(vec![65, 1, 0, 0, 2, 1, 0, 0]), 3, Some(9)));
    assert_eq!((second.content.ceiling, second.content.kept.clone(), second.content.due), (0, Some(vec![0; 7]), 4));
}

#[test]
fn corrections() {
    let text = "correct:\nnth 2\nby record 3 07\ndifferences 9\nroom 8\nrecord 3\nrecord 4\ncorrect:\nrecord 3";
    let [first, second] = &sections_of(text).expect("a case file")[..] else { panic!("two sections") };
    let Content { bytes, nth, replacement, differences, room, .. } = first.content.clone();
    assert_eq!((nth, replacement, differences, room), (2, vec![3, 0, 3, 0, 7], 9, Some(8)));
    assert_eq!(bytes, [2, 0, 3, 0, 2, 0, 4, 0]);
    let Content { nth, replacement, differences, .. } = second.content.clone();
    assert_eq!((nth, replacement, differences), (0, vec![], 248));
}

#[test]
fn books_and_rolls() {
    let sections = sections_of("book:\nword 1 258\nword 0 7\nlength 9").expect("a case file");
    assert_eq!(sections[0].content.bytes, [7, 0, 0, 0, 2, 1, 0, 0, 0]);
    let rolls = rolls_of("tariff:\nbytes 01\nroll:\nbytes 02\nbut 02 -> 03 = x\ntariff:\nroll:").expect("a case file");
    assert_eq!(rolls, [(vec![1], vec![2]), (vec![1], vec![3]), (vec![], vec![])]);
}

#[test]
fn a_difference_is_told() {
    assert_eq!(difference(b"", b""), None);
    assert_eq!(difference(b"abc", b"abc"), None);
    assert_eq!(difference(b"abc", b"abd").as_deref(), Some("byte 2 is 64, where the text gives 63"));
    assert_eq!(difference(b"abc", b"ab").as_deref(), Some("it has 2 bytes, where the text gives 3"));
    assert_eq!(difference(b"", b"a").as_deref(), Some("it has 1 bytes, where the text gives 0"));
}
