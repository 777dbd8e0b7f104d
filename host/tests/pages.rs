//! What the pages show is what comes of it: the worked examples of docs/FORMAT.md, by the model and by the library, the
//! texts of docs/TEXT.md, and the sample that docs/TOUR.md prints.

use milecopper_host::differential::{settle_by_the_model, Functions, Read, Settle, MODEL};
use milecopper_host::maker::checked_bytes_of;
use milecopper_host::model::book::BOOK_BYTES;
use milecopper_host::model::page::{PAGE_BYTES, PLACE_BYTES};
use milecopper_host::model::settle_roll;
use milecopper_host::model::table::print_statement;
use std::fs;
use std::path::{Path, PathBuf};

const FORMAT: &str = include_str!("../../docs/FORMAT.md");
const TOUR: &str = include_str!("../../docs/TOUR.md");

/// The bytes of the block that begins with three backticks and this name.
fn block(name: &str) -> Vec<u8> {
    let start = FORMAT.find(&format!("```{name}\n")).expect("the page has the block") + 3 + name.len();
    let text = FORMAT[start..].split("```").next().expect("the block ends");
    text.split_whitespace().map(|byte| u8::from_str_radix(byte, 16).expect("two hexadecimal digits")).collect()
}

/// Each trip, settled on a fresh book, gives its record; the ride out and back gives two, and is two trips of its window.
fn gives_the_records(settle: Settle) {
    for (trip, records, trips) in
        [("trip", "record", 1), ("october-trip", "october-record", 1), ("ride-out-and-back", "two-records", 2)]
    {
        let (mut book, mut statement) = ([0; BOOK_BYTES], [0xaa; 532]);
        let records = block(records);
        let written = records.len();
        assert_eq!(settle(&block("tariff"), &mut book, &block(trip), &mut statement), written as u64);
        assert_eq!(statement[..written], records);
        assert!(statement[written..].iter().all(|&byte| byte == 0xaa));
        assert_eq!(book[0], trips);
    }
}

/// The ride in an area of kind 8; its bicycle's payment stands in the book.
fn gives_the_aachen_record(settle: Settle) {
    let (mut book, mut statement) = ([0; BOOK_BYTES], [0; 532]);
    let record = block("aachen-record");
    assert_eq!(settle(&block("aachen-tariff"), &mut book, &block("aachen-trip"), &mut statement), record.len() as u64);
    assert_eq!(statement[..record.len()], record);
    assert_eq!(book[4 * 1_357..4 * 1_358], record[record.len() - 4..]);
}

/// The ride out and back five times, the later ones at the first one's check-out: the last record is the one with a cut.
fn gives_the_cut(settle: Settle) {
    let (mut book, mut statement) = ([0; BOOK_BYTES], [0; 532]);
    let mut trip = block("ride-out-and-back");
    let record = block("cut-record");
    for _ in 0..5 {
        assert_eq!(settle(&block("tariff"), &mut book, &trip, &mut statement), 2 * record.len() as u64);
        trip.copy_within(11..18, 4);
    }
    assert_eq!(statement[record.len()..2 * record.len()], record);
    assert_eq!(book[0], 10);
}

/// Quoted, both trips give these records and leave the book. Posted by them they leave settling's book; by fewer bytes, none.
fn are_quoted_and_posted(Functions { settle, quote, post, .. }: Functions) {
    for (trip, records) in [("trip", "record"), ("ride-out-and-back", "two-records")] {
        let (tariff, trip, records) = (block("tariff"), block(trip), block(records));
        let (mut book, mut settled, mut statement) = ([0; BOOK_BYTES], [0; BOOK_BYTES], [0; 532]);
        assert_eq!(quote(&tariff, &book, &trip, &mut statement), records.len() as u64);
        assert_eq!(statement[..records.len()], records);
        for fewer in [0, 40, records.len() - 1].into_iter().filter(|&fewer| fewer < records.len()) {
            assert_eq!(post(&tariff, &mut book, &trip, &records[..fewer]), 13 << 32);
        }
        assert_eq!(book, [0; BOOK_BYTES]);
        assert_eq!(post(&tariff, &mut book, &trip, &records), BOOK_BYTES as u64);
        settle(&tariff, &mut settled, &trip, &mut statement);
        assert_eq!(book, settled);
    }
}

/// Both kinds, read at the start and behind other bytes.
fn are_read(read: Read) {
    for (record, told) in [("cut-record", "cut-fields"), ("kind-4-record", "kind-4-fields")] {
        let (record, told) = (block(record), block(told));
        for before in [0, 1, 40] {
            let statement = [vec![7; before], record.clone(), vec![9; 3]].concat();
            let mut fields = [0xaa; 324];
            assert_eq!(read(&statement, before, &mut fields), record.len() as u64);
            assert_eq!(fields[..told.len()], told);
            assert!(fields[told.len()..].iter().all(|&byte| byte == 0xaa));
            assert_eq!(read(&statement, before, &mut fields[1..told.len()]), 12 << 32);
        }
    }
}

/// Three members of two associations on a page of accounts, and what its places begin with.
fn are_on_a_page(Functions { add, close, settle_member, .. }: Functions) {
    let (tariff, trip, record) = (block("tariff"), block("trip"), block("record"));
    let [first, second, other] = ["place-0", "place-1", "place-6"].map(block);
    let (mut page, mut statement) = (vec![0; PAGE_BYTES], [0; 532]);
    let members = [(0, 4_711), (0, 815), (1, 815)];
    assert_eq!(members.map(|(association, member)| add(&mut page, association, member)), [PLACE_BYTES as u64; 3]);
    assert_eq!(settle_member(&tariff, &mut page, 0, 815, &trip, &mut statement), record.len() as u64);
    assert_eq!(statement[..record.len()], record);
    assert_eq!(page[..first.len()], first);
    assert!(page[first.len()..PLACE_BYTES].iter().all(|&byte| byte == 0));
    assert_eq!(page[PLACE_BYTES..PLACE_BYTES + second.len()], second);
    assert_eq!(page[6 * PLACE_BYTES..6 * PLACE_BYTES + other.len()], other);
    assert_eq!(add(&mut page, 0, 4_711), 19 << 32);
    assert_eq!(settle_member(&tariff, &mut page, 1, 4_711, &trip, &mut statement), 19 << 32);
    assert_eq!(add(&mut page, 2, 7), 21 << 32);
    assert_eq!(close(&mut page, 0, 815), PLACE_BYTES as u64);
    assert!(page[PLACE_BYTES..6 * PLACE_BYTES].iter().all(|&byte| byte == 0));
    assert_eq!(page[6 * PLACE_BYTES..6 * PLACE_BYTES + other.len()], other);
}

/// Two trips under a ceiling, the second one on a book of its own: what is due, and what is kept.
fn are_under_a_ceiling(Functions { settle_month, .. }: Functions) {
    let (tariff, mut kept) = (block("tariff"), [0; 8]);
    for (trip, records, due, left) in [
        ("trip", "record", "due", "kept"),
        ("ride-out-and-back", "two-records", "due-of-the-rest", "kept-at-the-ceiling"),
    ] {
        let (trip, records, left) = (block(trip), block(records), block(left));
        let (mut book, mut statement, mut paid) = ([0; BOOK_BYTES], [0; 532], [0xaa; 6]);
        assert_eq!(settle_month(1_000_001, &mut kept, &tariff, &mut book, &trip, &mut statement, &mut paid), 24 << 32);
        assert_eq!(settle_month(1_000, &mut kept, &tariff, &mut book, &trip, &mut statement, &mut paid[..3]), 12 << 32);
        assert_eq!(
            settle_month(1_000, &mut kept, &tariff, &mut book, &trip, &mut statement, &mut paid),
            records.len() as u64
        );
        assert_eq!(statement[..records.len()], records);
        assert_eq!(paid.to_vec(), [block(due), vec![0xaa; 2]].concat());
        assert_eq!(kept.to_vec(), left);
    }
}

/// A roll of two trips: one is cancelled, and the other is moved so that the one behind it is refused.
fn are_corrected(Functions { correct, .. }: Functions) {
    let (tariff, roll) = (block("tariff"), [block("october-trip"), block("trip")].concat());
    let [holder, child, bicycle] = ["holders-difference", "childs-difference", "bicycles-difference"].map(block);
    let cancelled = [holder, vec![0; 80], child, vec![0; 72], bicycle.clone(), vec![0; 72]].concat();
    let moved = [vec![0; 168], bicycle, vec![0; 72]].concat();
    for (n, replacement, records, due) in
        [(2, vec![], block("october-record"), cancelled), (1, block("ride-out-and-back"), block("two-records"), moved)]
    {
        let (mut statements, mut differences) = ([0xaa; 1_064], [0xaa; 250]);
        let by = |statements: &mut [u8], differences: &mut [u8]| {
            correct(&tariff, &roll, n, &replacement, statements, differences)
        };
        assert_eq!(by(&mut statements[..records.len() - 1], &mut differences), 12 << 32);
        assert_eq!(by(&mut statements, &mut differences[..247]), 12 << 32);
        assert_eq!(by(&mut statements, &mut differences), records.len() as u64);
        assert_eq!(statements.to_vec(), [records.clone(), vec![0xaa; 1_064 - records.len()]].concat());
        assert_eq!(differences.to_vec(), [due, vec![0xaa; 2]].concat());
    }
    assert_eq!(correct(&tariff, &roll, 3, &[], &mut [], &mut []), 23 << 32);
    assert_eq!(correct(&tariff, &roll[..55], 2, &[], &mut [], &mut []), 23 << 32);
}

/// The table of the statement that the page puts together.
#[test]
fn the_table_that_is_printed() {
    let statement = [block("cut-record"), block("tariff")[37..43].to_vec(), block("kind-4-record"), vec![1]].concat();
    let start = FORMAT.find("```table\n").expect("the page has the table") + "```table\n".len();
    assert_eq!(Some(print_statement(&statement).as_str()), FORMAT[start..].split("```").next());
}

#[test]
fn the_worked_example_by_the_model() {
    gives_the_aachen_record(settle_by_the_model);
    gives_the_records(settle_by_the_model);
    gives_the_cut(settle_by_the_model);
    are_quoted_and_posted(MODEL);
    are_read(MODEL.read);
    are_on_a_page(MODEL);
    are_under_a_ceiling(MODEL);
    are_corrected(MODEL);
}

#[cfg(feature = "library")]
#[test]
fn the_worked_example_by_the_library() {
    gives_the_aachen_record(milecopper_host::library::settle_to_number);
    gives_the_records(milecopper_host::library::settle_to_number);
    gives_the_cut(milecopper_host::library::settle_to_number);
    are_quoted_and_posted(milecopper_host::library::LIBRARY);
    are_read(milecopper_host::library::LIBRARY.read);
    are_on_a_page(milecopper_host::library::LIBRARY);
    are_under_a_ceiling(milecopper_host::library::LIBRARY);
    are_corrected(milecopper_host::library::LIBRARY);
}

#[test]
fn the_sample_that_is_printed() {
    let (tariff, roll) =
        (include_bytes!("../../samples/tariff.bin").as_slice(), include_bytes!("../../samples/roll.bin").as_slice());
    let printed: Vec<&str> = TOUR.lines().skip_while(|line| *line != "    trip area km min open cents").collect();
    let printed: Vec<&str> = printed.iter().map_while(|line| line.strip_prefix("    ")).collect();
    assert_eq!(settle_roll(tariff, roll).lines().collect::<Vec<&str>>(), printed);
}

/// The first lines of the sample's statement.
#[test]
fn the_statement_that_is_printed() {
    let table = print_statement(include_bytes!("../../samples/statement.bin"));
    let first: String = table.lines().take(3).map(|line| format!("    {line}\n")).collect();
    assert!(TOUR.contains(&format!("\n\n{first}\n")));
}

/// The words of the C example, which tests/night.rs and c/check look at.
#[test]
fn the_night_in_words() {
    let night: String = include_str!("../c/expected.txt").lines().map(|line| format!("    {line}\n")).collect();
    assert!(TOUR.contains(&format!("\n\n{night}\n")));
}

/// What the header says of the stack of any call is the most of what it says of each.
#[test]
fn the_stack_in_the_header() {
    let header = include_str!("../../include/milecopper.h");
    let told = header.lines().find_map(|line| line.strip_prefix("#define MILECOPPER_MOST_STACK_BYTES "));
    let each = header.split("is called, at least ").skip(1).filter_map(|rest| rest.split(" bytes of stack").next());
    let each = each.map(|number| number.replace(',', "").parse::<u32>().expect("a number"));
    assert_eq!(told.map(|told| told.parse().expect("a number")), each.max());
}

/// The texts of docs/TEXT.md: the tariff and the trip are made and settled, and the mistakes are told as they stand there.
#[test]
fn the_texts() {
    let page = include_str!("../../docs/TEXT.md");
    let block = |name: &str| {
        let start = page.find(&format!("```{name}\n")).expect("the page has the block") + 4 + name.len();
        page[start..].split("```").next().expect("the block ends").to_string()
    };
    let tariff = checked_bytes_of(&block("tariff"), &|_| Err("no tariff".to_string())).expect("a tariff");
    let stops_of = |name: &str| if name == "tariff.txt" { Ok(2) } else { Err("no tariff".to_string()) };
    let roll = checked_bytes_of(&block("roll"), &stops_of).expect("a roll");
    assert!(settle_roll(&tariff, &roll).ends_with("\naccepted 1 refused 0 cents 635\n"));
    let wrong = block("roll").lines().next().expect("the tariff").to_string()
        + "
trip 2026-02-30T24:00+01:00 to 2026-03-01T00:10+01:00 class 2 level 0 adults 0 children 0 bikes 0 stops 0 1
trip 2026-03-01T00:00+01:00 to 2026-03-01T00:10+01:00 class 3 level 0 adults 0 children 0 bikes 0 stops 0 2";
    let faults = checked_bytes_of(&wrong, &stops_of).expect_err("mistakes");
    let told: String = faults.iter().map(|fault| format!("roll.txt: {fault}\n")).collect();
    assert_eq!(block("mistakes"), told + "roll.bin, which was there before, was removed\n");
}

/// The pages, by their paths: those at the top, but for the changelog, and those of docs/ and docs/claims/.
fn pages() -> Vec<PathBuf> {
    let root = Path::new(env!("CARGO_MANIFEST_DIR")).join("..");
    let within =
        |folder: &str| fs::read_dir(root.join(folder)).expect("a folder").map(|entry| entry.expect("an entry").path());
    let pages =
        within("docs").chain(within("docs/claims")).filter(|path| path.extension().is_some_and(|end| end == "md"));
    pages.chain(["README.md", "CONTRIBUTING.md"].map(|name| root.join(name))).collect()
}

#[test]
fn every_link_leads_to_a_file() {
    let mut lost = Vec::new();
    for path in pages() {
        let page = fs::read_to_string(&path).expect("a page");
        let links = page.split("](").skip(1).filter_map(|rest| rest.split(')').next());
        let links =
            links.filter(|link| !link.starts_with("http")).map(|link| link.split('#').next().unwrap_or_default());
        let folder = path.parent().expect("a folder");
        lost.extend(
            links.filter(|link| !folder.join(link).exists()).map(|link| format!("{link}, in {}", path.display())),
        );
    }
    assert!(lost.is_empty(), "links that lead nowhere: {lost:#?}");
}

/// It is read in two minutes.
#[test]
fn the_readme_is_short() {
    let lines = include_str!("../../README.md").lines().count();
    assert!(lines <= 110, "README.md has {lines} lines");
}
