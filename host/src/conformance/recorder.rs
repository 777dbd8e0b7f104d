//! The library, with each call noted; a call that shows something new is kept as a case.

use super::case::{slice_json, Case, Given};
use super::made::Suite;
use super::shows::shows;
use crate::differential::Functions;
use crate::library::LIBRARY;
use std::collections::{BTreeMap, BTreeSet};
use std::sync::Mutex;

/// So many cases are kept of each thing that a case shows.
const OF_EACH: usize = 10;

/// Of a larger tariff, and of slices that take more letters than that, only so many cases are kept.
const LARGE_TARIFF: usize = 2_500;
const LARGE_CASE: usize = 8_000;
const OF_LARGE_ONES: usize = 40;

/// An offset that JSON's numbers cannot tell from its neighbours is left out.
const LARGEST_NUMBER: u64 = 1 << 53;

struct Recorder {
    suite: Suite,
    /// What was given to each of the cases, so that none is kept twice.
    known: BTreeSet<String>,
    large: usize,
    from: String,
}

static RECORDER: Mutex<Option<Recorder>> = Mutex::new(None);

pub fn start() {
    let suite = Suite { cases: Vec::new(), shown: BTreeMap::new() };
    let recorder = Recorder { suite, known: BTreeSet::new(), large: 0, from: String::new() };
    *RECORDER.lock().expect("one thread") = Some(recorder);
}

/// Whence the next cases come, in words.
pub fn told_from(words: &str) {
    with(|recorder| recorder.from = words.to_string());
}

/// Those that were kept until now.
pub fn take() -> Suite {
    RECORDER.lock().expect("one thread").take().expect("started before").suite
}

/// The settled cases among those that were kept until now: tariff, book, trip and statement of each.
pub fn settled() -> Vec<[Vec<u8>; 4]> {
    with(|recorder| {
        let settled = recorder.suite.cases.iter().filter(|case| case.function == "milecopper_settle");
        let slice = |case: &Case, name| case.slice(name).expect("settling is given it").to_vec();
        settled.map(|case| ["tariff", "book", "trip", "statement"].map(|name| slice(case, name))).collect()
    })
}

fn with<T>(act: impl FnOnce(&mut Recorder) -> T) -> T {
    act(RECORDER.lock().expect("one thread").as_mut().expect("started before"))
}

/// One entry a function: its name, what it is given by the names of its parameters, and what it may have written.
pub const RECORDED: Functions = Functions {
    check: |tariff| {
        let given = vec![slice("tariff", tariff)];
        note("milecopper_check_tariff", given, (LIBRARY.check)(tariff), vec![])
    },
    settle: |tariff, book, trip, statement| {
        let given =
            vec![slice("tariff", tariff), slice("book", book), slice("trip", trip), slice("statement", statement)];
        let answer = (LIBRARY.settle)(tariff, book, trip, statement);
        note("milecopper_settle", given, answer, vec![("book", book.to_vec()), ("statement", statement.to_vec())])
    },
    quote: |tariff, book, trip, statement| {
        let given =
            vec![slice("tariff", tariff), slice("book", book), slice("trip", trip), slice("statement", statement)];
        let answer = (LIBRARY.quote)(tariff, book, trip, statement);
        note("milecopper_quote", given, answer, vec![("statement", statement.to_vec())])
    },
    post: |tariff, book, trip, record| {
        let given = vec![slice("tariff", tariff), slice("book", book), slice("trip", trip), slice("record", record)];
        let answer = (LIBRARY.post)(tariff, book, trip, record);
        note("milecopper_post", given, answer, vec![("book", book.to_vec())])
    },
    read: |statement, at, fields| {
        let given = vec![slice("statement", statement), ("at", Given::Number(at as u64)), slice("fields", fields)];
        let answer = (LIBRARY.read)(statement, at, fields);
        note("milecopper_read", given, answer, vec![("fields", fields.to_vec())])
    },
    add: |page, association, member| {
        let given = on_a_page(page, association, member);
        let answer = (LIBRARY.add)(page, association, member);
        note("milecopper_add", given, answer, vec![("page", page.to_vec())])
    },
    close: |page, association, member| {
        let given = on_a_page(page, association, member);
        let answer = (LIBRARY.close)(page, association, member);
        note("milecopper_close", given, answer, vec![("page", page.to_vec())])
    },
    settle_member: |tariff, page, association, member, trip, statement| {
        let mut given = vec![slice("tariff", tariff)];
        given.extend(on_a_page(page, association, member));
        given.extend([slice("trip", trip), slice("statement", statement)]);
        let answer = (LIBRARY.settle_member)(tariff, page, association, member, trip, statement);
        let then = vec![("page", page.to_vec()), ("statement", statement.to_vec())];
        note("milecopper_settle_member", given, answer, then)
    },
    settle_month: |ceiling, kept, tariff, book, trip, statement, due| {
        let mut given = vec![("ceiling", Given::Number(ceiling.into())), slice("kept", kept), slice("tariff", tariff)];
        given.extend([slice("book", book), slice("trip", trip), slice("statement", statement), slice("due", due)]);
        let answer = (LIBRARY.settle_month)(ceiling, kept, tariff, book, trip, statement, due);
        let then: [(_, &[u8]); 4] = [("kept", kept), ("book", book), ("statement", statement), ("due", due)];
        note("milecopper_settle_month", given, answer, then.map(|(name, bytes)| (name, bytes.to_vec())).to_vec())
    },
    correct: |tariff, roll, n, replacement, statements, differences| {
        let mut given = vec![slice("tariff", tariff), slice("roll", roll), ("n", Given::Number(n.into()))];
        let lent = [("replacement", replacement), ("statements", statements), ("differences", differences)];
        given.extend(lent.map(|(name, bytes)| slice(name, bytes)));
        let answer = (LIBRARY.correct)(tariff, roll, n, replacement, statements, differences);
        let then = vec![("statements", statements.to_vec()), ("differences", differences.to_vec())];
        note("milecopper_correct", given, answer, then)
    },
};

fn slice(name: &'static str, bytes: &[u8]) -> (&'static str, Given) {
    (name, Given::Slice(bytes.to_vec()))
}

fn on_a_page(page: &[u8], association: u32, member: u32) -> Vec<(&'static str, Given)> {
    let [association, member] = [association, member].map(|number| Given::Number(number.into()));
    vec![slice("page", page), ("association", association), ("member", member)]
}

/// Notes a call, and answers what it answered.
fn note(
    function: &'static str,
    given: Vec<(&'static str, Given)>,
    answer: u64,
    then: Vec<(&'static str, Vec<u8>)>,
) -> u64 {
    let case = Case { function, given, answer, then, shows: Vec::new(), from: String::new() };
    with(|recorder| recorder.offer(case));
    answer
}

impl Recorder {
    /// Keeps the case where it shows something that too few show yet.
    fn offer(&mut self, mut case: Case) {
        let all = shows(&case);
        let new: Vec<String> = all
            .iter()
            .filter(|thing| self.suite.shown.get(*thing).is_none_or(|&many| many < OF_EACH))
            .cloned()
            .collect();
        if new.is_empty() || !self.has_room_for(&case) {
            return;
        }
        for thing in all {
            *self.suite.shown.entry(thing).or_default() += 1;
        }
        case.shows = new;
        case.from.clone_from(&self.from);
        self.suite.cases.push(case);
    }

    /// Whether the case is new and not too large.
    fn has_room_for(&mut self, case: &Case) -> bool {
        let mut text = case.function.to_string();
        let mut letters = 0;
        for (name, given) in &case.given {
            match given {
                Given::Number(number) if *number > LARGEST_NUMBER => return false,
                Given::Number(number) => text += &format!(" {number}"),
                Given::Slice(bytes) => {
                    let slice = slice_json(bytes);
                    letters += if *name == "tariff" { 0 } else { slice.len() };
                    text += &slice;
                }
            }
        }
        let is_large = letters > LARGE_CASE || case.slice("tariff").is_some_and(|tariff| tariff.len() > LARGE_TARIFF);
        if is_large && self.large == OF_LARGE_ONES || !self.known.insert(text) {
            return false;
        }
        self.large += usize::from(is_large);
        true
    }
}
