//! The tuned implementation settles as the model does, and its program prints what the model's prints.

use milecopper_host::differential::{compare, number_of, Functions, Options, MODEL};
use milecopper_host::maker::bytes_of;
use milecopper_host::model;
use milecopper_host::model::book::BOOK_BYTES;
use milecopper_host::model::roll::settle_roll;
use milecopper_speed::tuned;
use std::io::{self, Read};

const TARIFF: &[u8] = include_bytes!("../../../samples/tariff.bin");
const ROLL: &[u8] = include_bytes!("../../../samples/roll.bin");
const PAPER_ROLL: &[u8] = include_bytes!("../../../samples/paper-roll.bin");

#[test]
fn it_settles_as_the_model_does() {
    let options = Options { seeds: vec![5, 6], longer: 1, part: None, names: Vec::new() };
    let functions = Functions { check: tuned::check_tariff, settle: tuned::settle, ..MODEL };
    if let Err(difference) = compare("the tuned implementation", functions, &options) {
        panic!("{difference}");
    }
}

/// Stops are looked at in groups: as many as are tested at once, and some more.
#[test]
fn faults_among_many_stops() {
    let mut tariff = TARIFF.to_vec();
    for stop in 35..411 {
        tariff.extend(made(&format!("stop {} {} {}\n", stop % 7, 2_000 * stop, 1_000_000 - stop % 2)));
    }
    faults_are_the_same(tariff);
}

/// Any number of them, up to one too many.
#[test]
fn any_number_of_stops() {
    let stop = made("stop 6 1000000 0\n");
    let mut tariff = TARIFF.to_vec();
    for _ in 35..=1_001 {
        tariff.extend(&stop);
        answers_the_same(&tariff);
        answers_the_same(&[&tariff[..], &[11, 0, 2]].concat());
    }
}

/// Areas of both kinds and all sorts of caps, in any order that there may be: cities stand behind regions, and others between.
#[test]
fn faults_among_areas_of_both_kinds() {
    let common = "base 10000 km 1000 valid 1440 first 100 child 100";
    let aachen = "base 0 km 0 valid 30 first 0 child 0";
    let text = format!(
        "edition 2000-01-01\n\
         area state parent 0 {common} cap levels 60000 1 2 3 60000 day 60000 bike 60000\n\
         aachen region parent 0 {aachen} cap flat 60000 30 day none bike 60000 tickets flat 60000 trip 60000 town none\n\
         area region parent 0 {common} cap flat 0 1440 day 0 bike 60000\n\
         aachen city parent 1 {aachen} cap none day 60000 bike 60000 tickets none trip 0 town km\n\
         area city parent 2 {common} cap none day none bike 60000\n\
         aachen region parent 0 {common} cap levels 1 2 3 4 5 day 1 bike 7 tickets levels 1 60000 3 4 5 trip 9 town none\n\
         aachen city parent 5 {common} cap none day none bike 7 tickets none trip 9 town base\n\
         area city parent 2 {common} cap levels 0 0 0 0 0 day 60000 bike 1\n"
    );
    let factors = "factor 1 mark 0\n".to_string() + &"factor 9 mark 1\n".repeat(3);
    faults_are_the_same(made(&(text + &factors + "stop 7 0 0\nstop 3 1 1\n")));
}

/// As many factor records as there may be.
#[test]
fn faults_among_many_factors() {
    let (prices, factor) = ("base 1 km 1 valid 30 first 0 child 0 cap none day none bike 0\n", "factor 9 mark 1\n");
    let areas = format!("edition 2000-01-01\narea state parent 0 {prices}")
        + &format!("area region parent 0 {prices}").repeat(31);
    let text = areas + "factor 1 mark 0\n" + &factor.repeat(31) + "stop 31 0 0\n";
    faults_are_the_same(made(&text));
}

/// Each bit is flipped, and the tariff is cut everywhere.
fn faults_are_the_same(mut tariff: Vec<u8>) {
    for byte in 0..tariff.len() {
        for bit in 0..8 {
            tariff[byte] ^= 1 << bit;
            answers_the_same(&tariff);
            tariff[byte] ^= 1 << bit;
        }
        answers_the_same(&tariff[..byte]);
    }
    answers_the_same(&tariff);
}

fn answers_the_same(tariff: &[u8]) {
    let trip = &PAPER_ROLL[..26];
    let expected = number_of(model::settle(tariff, &mut vec![0; BOOK_BYTES], trip, &mut [0; 17]));
    assert_eq!(tuned::settle(tariff, &mut vec![0; BOOK_BYTES], trip, &mut [0; 17]), expected, "{tariff:?}");
    assert_eq!(tuned::check_tariff(tariff), number_of(model::check_tariff(tariff)), "{tariff:?}");
}

/// Two editions and a third, and whatever may stand behind them.
#[test]
fn faults_among_editions() {
    let prices = "base 1 km 1 valid 30 first 0 child 0 cap none day none bike 0";
    let edition = |date: &str, stops: usize| {
        let stops = "stop 1 0 0\n".repeat(stops);
        made(&format!(
            "edition {date}\narea state parent 0 {prices}\narea region parent 0 {prices}\nfactor 1 mark 0\nfactor 2 mark 1\n{stops}"
        ))
    };
    let (first, second) = (edition("2000-01-01", 2), edition("2026-06-01", 9));
    let both = [&first[..], &second].concat();
    faults_are_the_same(both.clone());
    faults_are_the_same([&edition("2099-12-31", 0)[..], &edition("2000-01-01", 0)].concat());
    for behind in [&first[..8], &[6, 0, 9], &[6, 0, 9, 0], &[7, 0, 9, 0, 0, 0, 0, 0, 0], &[2, 0, 9, 0], &[1, 0, 9, 0]] {
        faults_are_the_same([&first, behind].concat());
        answers_the_same(&[&both, behind].concat());
    }
    for stops in 0..=1_001 {
        answers_the_same(&[&edition("2000-01-01", stops)[..], &second].concat());
    }
}

/// Each number of each word of a book, beside those that it may have.
#[test]
fn books_that_are_not_sound() {
    let trip = &PAPER_ROLL[..28];
    let mut used = vec![0; BOOK_BYTES];
    model::settle(TARIFF, &mut used, trip, &mut [0; 26]).expect("a trip that is accepted");
    for word in 0..BOOK_BYTES / 4 {
        for (book, change) in
            [&vec![0; BOOK_BYTES], &used].into_iter().flat_map(|book| (0..32).map(move |bit| (book, 1 << bit)))
        {
            let mut book = book.clone();
            let bytes: &mut [u8; 4] = book[4 * word..].first_chunk_mut().expect("a word");
            *bytes = (u32::from_le_bytes(*bytes) ^ change).to_le_bytes();
            let (mut one, mut other) = (book.clone(), book);
            let (mut statement, mut other_statement) = ([0; 26], [0; 26]);
            let expected = number_of(model::settle(TARIFF, &mut one, trip, &mut statement));
            let found = tuned::settle(TARIFF, &mut other, trip, &mut other_statement);
            assert_eq!(found, expected, "word {word} changed by {change}");
            assert!(one == other && statement == other_statement, "word {word} changed by {change}");
        }
    }
}

#[test]
fn it_prints_the_samples_as_the_model_does() {
    prints_the_same(TARIFF, ROLL);
    prints_the_same(TARIFF, PAPER_ROLL);
    prints_the_same(TARIFF, &[]);
}

#[test]
fn broken_frames_end_the_run() {
    let broken: [&[u8]; 5] = [&[1], &[1, 0, 7, 0], &[1, 4, 7, 0], &[26, 0, 7], &[26, 0, 7, 0, 0, 0]];
    for frame in broken {
        prints_the_same(TARIFF, &[PAPER_ROLL, frame].concat());
        prints_the_same(TARIFF, &[PAPER_ROLL, frame, PAPER_ROLL].concat());
        prints_the_same(TARIFF, &[frame, PAPER_ROLL].concat());
    }
}

#[test]
fn wrong_kinds_are_passed_over() {
    let other_kinds = made("record 9\nrecord 1 01 02 03\nrecord 65535\n");
    let longest = [&[0, 4, 7, 0], [0; 1_022].as_slice()].concat();
    prints_the_same(TARIFF, &[&other_kinds, ROLL, &other_kinds, &longest, ROLL].concat());
}

#[test]
fn refused_tariffs_give_one_line() {
    let tariffs = [Vec::new(), TARIFF[..28].to_vec(), [TARIFF, &[0]].concat(), TARIFF.repeat(2)];
    for tariff in tariffs {
        prints_the_same(&tariff, ROLL);
    }
}

/// More lines and bytes than the buffers hold, numbers of many lengths, refusals of all sorts of trips.
#[test]
fn long_rolls() {
    let mut text = String::new();
    for day in 1..=28 {
        for hour in 8..18 {
            let (class, adults, bicycles) = (hour % 2 + 1, day % 4, hour % 3);
            let (first, last) = (hour % 5, day * 7 % 28);
            text += &format!(
                "trip 2026-02-{day}T{hour}:05+01:00 to 2026-02-{day}T{hour}:31+01:00 class {class} level {} \
                 adults {adults} children 1 bikes {bicycles} stops {first} {last} 0\n",
                hour % 6
            );
        }
    }
    let month = made(&text);
    prints_the_same(TARIFF, &month.repeat(4));
}

/// Two lines a trip, until no more fit into the window: as a whole, or but for one that is not broken.
#[test]
fn broken_trips() {
    let trip = |stops| {
        let text =
            "trip 2026-05-04T08:00+02:00 to 2026-05-04T08:00+02:00 class 2 level 0 adults 1 children 1 bikes 1 stops";
        made(&format!("{text} {stops}\n"))
    };
    let (whole, broken) = (trip("14 20"), trip("14 20 14"));
    prints_the_same(TARIFF, &broken.repeat(130));
    prints_the_same(TARIFF, &[&broken.repeat(127), &whole[..], &broken, &whole, &whole, &broken].concat());
    let lines = settle_roll(TARIFF, &broken.repeat(130)).lines().count();
    assert_eq!(lines, 1 + 2 * 128 + 2 + 1, "128 are accepted");
}

#[test]
fn as_many_records_as_there_may_be() {
    let tariff = made(
        "edition 2000-01-01\n\
         area state parent 0 base 10000 km 1000 valid 30 first 100 child 0 cap none day none bike 0\n\
         factor 1 mark 0\nstop 0 0 0\nstop 0 1000000 1000000\n",
    );
    let trip = "trip 2026-05-04T08:00+02:00 to 2026-05-04T08:00+02:00 class 1 level 0 adults 10 children 10 bikes 0 stops 0 1\n";
    let (trip, other) = (made(trip), made("record 9\n"));
    // A total above 32 bits.
    prints_the_same(&tariff, &trip.repeat(80));
    let most = [trip.clone(), other.repeat(65_534)].concat();
    for behind in [Vec::new(), vec![1], other, trip] {
        prints_the_same(&tariff, &[&most[..], &behind].concat());
    }
    prints_the_same(&tariff, &most[..most.len() - 1]);
}

#[test]
fn a_roll_that_cannot_be_read_gets_no_tail() {
    let mut printed = Vec::new();
    assert!(tuned::settle_roll(TARIFF, PAPER_ROLL.chain(Failing), &mut printed).is_err());
    let whole = settle_roll(TARIFF, PAPER_ROLL);
    let lines = whole.split_inclusive('\n').take(6).collect::<String>();
    assert_eq!(String::from_utf8(printed).expect("a text"), lines);
}

/// Prints what the model prints, however many bytes come at a time.
fn prints_the_same(tariff: &[u8], roll: &[u8]) {
    let expected = settle_roll(tariff, roll);
    for most in [usize::MAX, 1_000, 7, 1] {
        let mut printed = Vec::new();
        tuned::settle_roll(tariff, Pieces { bytes: roll, most }, &mut printed).expect("a roll that can be read");
        assert!(printed == expected.as_bytes(), "in pieces of {most}\n{}", String::from_utf8_lossy(&printed));
    }
}

fn made(text: &str) -> Vec<u8> {
    bytes_of(text).unwrap_or_else(|fault| panic!("{fault} in\n{text}"))
}

/// Bytes that come a few at a time.
struct Pieces<'a> {
    bytes: &'a [u8],
    most: usize,
}

impl Read for Pieces<'_> {
    fn read(&mut self, buffer: &mut [u8]) -> io::Result<usize> {
        let most = self.most.min(buffer.len());
        self.bytes.read(&mut buffer[..most])
    }
}

struct Failing;

impl Read for Failing {
    fn read(&mut self, _: &mut [u8]) -> io::Result<usize> {
        Err(io::Error::other("no more"))
    }
}
