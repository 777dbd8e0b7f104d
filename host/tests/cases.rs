//! The file under which the starred sums are proved (crates/promises/specs/Cases.antt) is samples/tariff.bin, byte for byte.

const CASES: &str = include_str!("../../crates/promises/specs/Cases.antt");
const SAMPLE: &[u8] = include_bytes!("../../samples/tariff.bin");

/// The widths of an edition's date, of an area's fields in kind 1, of what kind 8 has behind them, of a factor record's and of a stop's.
const DATE: [usize; 3] = [2, 1, 1];
const AREA: [usize; 15] = [1, 1, 2, 2, 2, 1, 1, 1, 2, 2, 2, 2, 2, 2, 2];
const MORE: [usize; 7] = [2, 2, 2, 2, 2, 2, 1];
const FACTOR: [usize; 2] = [1, 1];
const STOP: [usize; 3] = [1, 4, 4];

/// The entries of the lists that begin with a word, each with its numbers.
fn entries(words: &[&str]) -> Vec<(&'static str, Vec<u32>)> {
    let entry = |line: &'static str| {
        let (word, numbers) = line.trim().trim_start_matches("∷ ").split_once(' ')?;
        let numbers: Result<_, _> = numbers.split(' ').map(str::parse).collect();
        words.contains(&word).then_some((word, numbers.ok()?))
    };
    CASES.lines().filter_map(entry).collect()
}

/// The date from which the file's one edition is valid.
fn date() -> Vec<u32> {
    let numbers =
        CASES.lines().find_map(|line| line.strip_prefix("sample = opening_bytes ")?.strip_suffix(" ++ sample_tariff"));
    numbers.expect("the sample's opening").split(' ').map(|number| number.parse().expect("a number")).collect()
}

/// A record: its length, its kind, and its fields.
fn record(kind: u8, widths: &[usize], fields: &[u32]) -> Vec<u8> {
    assert_eq!(widths.len(), fields.len(), "a record of kind {kind} with other fields: {fields:?}");
    let mut bytes = vec![0, 0, kind, 0];
    for (&width, field) in widths.iter().zip(fields) {
        let bytes_of = field.to_le_bytes();
        let (low, high) = bytes_of.split_at(width);
        assert!(high.iter().all(|&byte| byte == 0), "{field} has more than {width} bytes");
        bytes.extend(low);
    }
    bytes[0] = bytes.len() as u8 - 2;
    bytes
}

/// Its percentages, 50 and 50, stand behind the first five fields.
fn area(word: &str, fields: &[u32]) -> Vec<u8> {
    let all = [&fields[..5], &[50, 50], &fields[5..]].concat();
    match word {
        "sample_area" => record(1, &AREA, &all),
        _ => record(8, &[&AREA[..], &MORE[..]].concat(), &all),
    }
}

#[test]
fn the_proved_sample_is_the_file() {
    let opening = record(9, &DATE, &date());
    let areas = entries(&["sample_area", "aachen_area"]).into_iter().map(|(word, fields)| area(word, &fields));
    let factors = entries(&["sample_factor"]).into_iter().map(|(_, fields)| record(5, &FACTOR, &fields));
    let stops = entries(&["sample_stop"]).into_iter().map(|(_, fields)| record(2, &STOP, &fields));
    let bytes: Vec<u8> = [opening].into_iter().chain(areas).chain(factors).chain(stops).flatten().collect();
    assert_eq!(bytes, SAMPLE);
}
