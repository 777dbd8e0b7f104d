//! Writes the cases of the differential test with the model's answers, for hosts that are not written in Rust.

use milecopper_host::differential::{run_alike, Functions, Options, MODEL};
use milecopper_host::tool::{is_asked, misused};
use std::env;
use std::io::{self, BufWriter, Stdout, Write};
use std::process::ExitCode;
use std::sync::Mutex;

const USAGE: &str = "usage: cases SEED

Writes the cases that the differential test has of this seed to standard output, with the model's answers. A case is its function, 1 byte:
0 checks a tariff, 1 settles, 2 quotes, 3 posts, 4 reads. Then come the slices that are lent, tariff, book, trip and statement or record, each
with its length in 4 bytes; the answer, 8 bytes; and book and statement or record as they are then. A reading has the offset first, 8 bytes;
it is lent kept records and fields, and the fields come again behind the answer. A slice with the length 4294967295 has no bytes: it is the
last one of its name again. All numbers are little-endian. Calls on a page of accounts, under a ceiling
and corrections are left out.";

/// The functions by number.
const CHECK: u8 = 0;
const SETTLE: u8 = 1;
const QUOTE: u8 = 2;
const POST: u8 = 3;
const READ: u8 = 4;

/// The slices by name, and how many there are.
const TARIFF: usize = 0;
const BOOK: usize = 1;
const TRIP: usize = 2;
const FOURTH: usize = 3;
const KEPT: usize = 4;
const FIELDS: usize = 5;
const NAMES: usize = 6;

/// A slice and its name.
type Named<'a> = (usize, &'a [u8]);

static WRITER: Mutex<Option<Writer>> = Mutex::new(None);

/// The model, with each call written, but for those on a page of accounts, under a ceiling and corrections.
const WRITTEN: Functions = Functions {
    check: |tariff| {
        let answer = (MODEL.check)(tariff);
        write(&[CHECK], &lent(tariff, &[], &[], &[]), answer, &[(BOOK, &[]), (FOURTH, &[])]);
        answer
    },
    settle: |tariff, book, trip, statement| {
        let (before, blank) = (book.to_vec(), statement.to_vec());
        let answer = (MODEL.settle)(tariff, book, trip, statement);
        write(&[SETTLE], &lent(tariff, &before, trip, &blank), answer, &[(BOOK, book), (FOURTH, statement)]);
        answer
    },
    quote: |tariff, book, trip, statement| {
        let blank = statement.to_vec();
        let answer = (MODEL.quote)(tariff, book, trip, statement);
        write(&[QUOTE], &lent(tariff, book, trip, &blank), answer, &[(BOOK, book), (FOURTH, statement)]);
        answer
    },
    post: |tariff, book, trip, record| {
        let before = book.to_vec();
        let answer = (MODEL.post)(tariff, book, trip, record);
        write(&[POST], &lent(tariff, &before, trip, record), answer, &[(BOOK, book), (FOURTH, record)]);
        answer
    },
    read: |kept, at, fields| {
        let blank = fields.to_vec();
        let answer = (MODEL.read)(kept, at, fields);
        let head = [&[READ][..], &(at as u64).to_le_bytes()].concat();
        write(&head, &[(KEPT, kept), (FIELDS, &blank)], answer, &[(FIELDS, fields)]);
        answer
    },
    ..MODEL
};

fn lent<'a>(tariff: &'a [u8], book: &'a [u8], trip: &'a [u8], fourth: &'a [u8]) -> [Named<'a>; 4] {
    [(TARIFF, tariff), (BOOK, book), (TRIP, trip), (FOURTH, fourth)]
}

struct Writer {
    out: BufWriter<Stdout>,
    /// The last slice of each name.
    last: [Vec<u8>; NAMES],
    /// What became of the cases so far.
    written: io::Result<()>,
}

impl Writer {
    fn put(&mut self, (name, slice): Named) -> io::Result<()> {
        if self.last[name] == slice {
            return self.out.write_all(&u32::MAX.to_le_bytes());
        }
        self.last[name] = slice.to_vec();
        let length = u32::try_from(slice.len()).expect("no slice is that long");
        self.out.write_all(&length.to_le_bytes())?;
        self.out.write_all(slice)
    }

    fn put_case(&mut self, head: &[u8], lent: &[Named], answer: u64, then: &[Named]) -> io::Result<()> {
        self.out.write_all(head)?;
        lent.iter().try_for_each(|&slice| self.put(slice))?;
        self.out.write_all(&answer.to_le_bytes())?;
        then.iter().try_for_each(|&slice| self.put(slice))
    }
}

/// Writes a case, unless an earlier one could not be. Its head is the function and, of a reading, the offset.
fn write(head: &[u8], lent: &[Named], answer: u64, then: &[Named]) {
    let mut writer = WRITER.lock().expect("one thread");
    let writer = writer.as_mut().expect("made before the first call");
    if writer.written.is_ok() {
        writer.written = writer.put_case(head, lent, answer, then);
    }
}

fn main() -> ExitCode {
    if is_asked(USAGE) {
        return ExitCode::SUCCESS;
    }
    let arguments: Vec<String> = env::args().skip(1).collect();
    let [word] = arguments.as_slice() else {
        return misused("cases", "a seed is due", USAGE);
    };
    let Ok(seed) = word.parse() else {
        return misused("cases", &format!("'{word}' is not a number"), USAGE);
    };
    match write_all(seed) {
        Ok(()) => ExitCode::SUCCESS,
        Err(told) => {
            eprintln!("cases: {told}");
            ExitCode::FAILURE
        }
    }
}

fn write_all(seed: u64) -> Result<(), String> {
    let writer = Writer { out: BufWriter::new(io::stdout()), last: Default::default(), written: Ok(()) };
    *WRITER.lock().expect("one thread") = Some(writer);
    let options = Options { seeds: vec![seed], longer: 1, part: None, names: Vec::new() };
    run_alike("the model", WRITTEN, &options)?;
    let mut writer = WRITER.lock().expect("one thread").take().expect("made above");
    writer.written.and_then(|()| writer.out.flush()).map_err(|error| format!("standard output: {error}"))
}
