//! Paints the stack of every call of the library on the examples and on cases of the differential test, and tells the most
//! bytes that each function takes. Ends with status 1 where they are more than its limit.
//!
//! The arguments are the words that start c/painter.c where it is built for another processor, after that one's name; it is given
//! the same calls.

use milecopper_host::differential::{run_alike, Functions, Options};
use milecopper_host::examples::{run, FILES};
use milecopper_host::library::LIBRARY;
use milecopper_host::stack::{
    bytes_of, depth_of, Call, ADD, CHECK, CLOSE, CORRECT, FUNCTIONS, IS_PAINTED, POST, QUOTE, READ, SETTLE,
    SETTLE_MEMBER, SETTLE_MONTH,
};
use milecopper_host::tool::{is_asked, misused};
use std::io::{BufWriter, Read, Write};
use std::process::{Child, ChildStdin, Command, ExitCode, Stdio};
use std::sync::atomic::{AtomicUsize, Ordering::Relaxed};
use std::sync::Mutex;
use std::{env, iter};

const USAGE: &str = "usage: stack [PROCESSOR WORD...]

Tells the most bytes of stack that a call of each function takes on the examples and on cases of the differential test. The words
start c/painter.c where it is built for another processor.";

/// The seeds of the differential test whose cases are painted: half of its fixed run.
const SEEDS: [u64; 2] = [1, 2];

/// For each function how many calls were painted, and the most bytes that one took.
static CALLS: [AtomicUsize; FUNCTIONS.len()] = [const { AtomicUsize::new(0) }; FUNCTIONS.len()];
static MOST: [AtomicUsize; FUNCTIONS.len()] = [const { AtomicUsize::new(0) }; FUNCTIONS.len()];
static PAINTER: Mutex<Option<BufWriter<ChildStdin>>> = Mutex::new(None);

/// The library, with each call made on a painted stack first.
const PAINTED: Functions = Functions {
    check: |tariff| {
        paint(CHECK, &[tariff], [0; 2]);
        (LIBRARY.check)(tariff)
    },
    settle: |tariff, book, trip, statement| {
        paint(SETTLE, &[tariff, book, trip, statement], [0; 2]);
        (LIBRARY.settle)(tariff, book, trip, statement)
    },
    quote: |tariff, book, trip, statement| {
        paint(QUOTE, &[tariff, book, trip, statement], [0; 2]);
        (LIBRARY.quote)(tariff, book, trip, statement)
    },
    post: |tariff, book, trip, record| {
        paint(POST, &[tariff, book, trip, record], [0; 2]);
        (LIBRARY.post)(tariff, book, trip, record)
    },
    read: |statement, at, fields| {
        paint(READ, &[statement, fields], [at, 0]);
        (LIBRARY.read)(statement, at, fields)
    },
    add: |page, association, member| {
        paint(ADD, &[page], [association as usize, member as usize]);
        (LIBRARY.add)(page, association, member)
    },
    close: |page, association, member| {
        paint(CLOSE, &[page], [association as usize, member as usize]);
        (LIBRARY.close)(page, association, member)
    },
    settle_member: |tariff, page, association, member, trip, statement| {
        paint(SETTLE_MEMBER, &[tariff, page, trip, statement], [association as usize, member as usize]);
        (LIBRARY.settle_member)(tariff, page, association, member, trip, statement)
    },
    settle_month: |ceiling, kept, tariff, book, trip, statement, due| {
        paint(SETTLE_MONTH, &[kept, tariff, book, trip, statement, due], [ceiling as usize, 0]);
        (LIBRARY.settle_month)(ceiling, kept, tariff, book, trip, statement, due)
    },
    correct: |tariff, roll, n, replacement, statements, differences| {
        paint(CORRECT, &[tariff, roll, replacement, statements, differences], [n as usize, 0]);
        (LIBRARY.correct)(tariff, roll, n, replacement, statements, differences)
    },
};

fn paint(function: usize, slices: &[&[u8]], numbers: [usize; 2]) {
    let call = Call::of(slices, numbers);
    CALLS[function].fetch_add(1, Relaxed);
    MOST[function].fetch_max(depth_of(function, &call), Relaxed);
    if let Some(painter) = PAINTER.lock().expect("one thread").as_mut() {
        painter.write_all(&bytes_of(function, &call)).expect("the painter takes calls");
    }
}

fn main() -> ExitCode {
    if is_asked(USAGE) {
        return ExitCode::SUCCESS;
    }
    if !IS_PAINTED {
        println!("stack: NOT painted, which is done on x86-64 and aarch64 only");
        return ExitCode::SUCCESS;
    }
    let mut arguments = env::args().skip(1);
    let other = match (arguments.next(), arguments.collect::<Vec<_>>()) {
        (None, _) => None,
        (Some(word), words) if words.is_empty() => {
            return misused("stack", &format!("words are due behind '{word}'"), USAGE);
        }
        (Some(processor), words) => Some((processor, start_painter(&words))),
    };
    if let Err(told) = paint_all() {
        println!("stack: {told}");
        return ExitCode::FAILURE;
    }
    let here = (env::consts::ARCH.to_string(), MOST.each_ref().map(|most| most.load(Relaxed)));
    let there = other.map(|(processor, painter)| (processor, end_painter(painter)));
    let mut status = ExitCode::SUCCESS;
    for (processor, most) in iter::once(here).chain(there) {
        for ((function, most), calls) in FUNCTIONS.iter().zip(most).zip(&CALLS) {
            let (name, limit) = (function.name, function.limit);
            println!("stack: {name} takes {most} bytes at most, of {limit} that it may ({processor}, {calls:?} calls)");
            if most > limit {
                status = ExitCode::FAILURE;
            }
        }
    }
    status
}

fn paint_all() -> Result<(), String> {
    for (file, text) in FILES {
        run(text, PAINTED, None).map_err(|told| format!("{file}, {told}"))?;
    }
    let options = Options { seeds: SEEDS.to_vec(), longer: 1, part: None, names: Vec::new() };
    run_alike("the library", PAINTED, &options).map(|_| ())
}

fn start_painter(words: &[String]) -> Child {
    let mut command = Command::new(&words[0]);
    let mut painter =
        command.args(&words[1..]).stdin(Stdio::piped()).stdout(Stdio::piped()).spawn().expect("the painter starts");
    *PAINTER.lock().expect("one thread") = painter.stdin.take().map(BufWriter::new);
    painter
}

fn end_painter(mut painter: Child) -> [usize; FUNCTIONS.len()] {
    drop(PAINTER.lock().expect("one thread").take());
    let mut told = Vec::new();
    painter.stdout.take().expect("a pipe").read_to_end(&mut told).expect("the painter tells what it found");
    assert!(painter.wait().expect("the painter ends").success(), "the painter failed");
    let mut numbers = told.chunks_exact(8).map(|bytes| u64::from_le_bytes(bytes.try_into().expect("8 bytes")) as usize);
    [(); FUNCTIONS.len()].map(|()| numbers.next().expect("a number for each function"))
}
