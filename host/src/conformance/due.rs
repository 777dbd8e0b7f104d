//! What the suite has to show.

use super::made::Suite;

const FEWEST_CASES: usize = 2_000;

/// The refusals of settling up to the last but one; then comes 12 or, of a posting, 13.
const OF_A_TRIP: [u32; 13] = [1, 2, 3, 4, 5, 6, 7, 8, 9, 10, 11, 17, 22];

/// Each function and its refusals.
fn refusals() -> Vec<(&'static str, Vec<u32>)> {
    let trip = |last: &[u32]| [&OF_A_TRIP, last].concat();
    vec![
        ("check_tariff", vec![1, 2, 3]),
        ("settle", trip(&[12])),
        ("quote", trip(&[12])),
        ("post", trip(&[13])),
        ("read", vec![12, 14, 15, 16]),
        ("add", vec![18, 19, 20, 21]),
        ("close", vec![18, 19, 21]),
        ("settle_member", trip(&[12, 18, 19, 21])),
        ("settle_month", trip(&[12, 24])),
        ("correct", vec![1, 2, 3, 12, 23]),
    ]
}

/// What trips have to show, each of settling, of a quote, of a posting and under a ceiling.
fn of_trips() -> Vec<String> {
    let places =
        ["a state of kind 1", "a region of kind 1", "a city of kind 1", "a region of kind 8", "a city of kind 8"];
    let mut all: Vec<String> = Vec::new();
    for place in places {
        all.extend([1, 2].map(|class| format!("named cap of class {class} of {place}")));
        all.extend([1, 2].map(|class| format!("class {class} in {place}")));
    }
    all.extend(["kind 1", "kind 8"].map(|kind| format!("broken in two, {kind}")));
    all.extend(["on", "back"].map(|way| format!("the night in which the clock is put {way}")));
    all
}

/// What trips under a monthly ceiling have to show, and corrections.
const OF_MONTHS: [&str; 19] = [
    "accepted, all that is charged is due",
    "accepted, what is charged is cut",
    "accepted, nothing is due at the ceiling",
    "accepted, nothing is due, as the ceiling is below the amount",
    "accepted, a ceiling of 0",
    "accepted, a ceiling of 1,000,000",
    "accepted, the month before is kept",
    "accepted, a later month is kept",
    "accepted, a month's first minute",
    "accepted, a month's last minute",
    "accepted, by the clock the next month, with offset 1",
    "accepted, by the clock the next month, with offset 2",
    "accepted, the check-out is in the next month",
    "accepted, broken, cut in its second record",
    "refused 12, no byte for what is due",
    "refused 12, 3 bytes for what is due",
    "refused 24, a ceiling of 1,000,001 alone",
    "refused 24, an amount of 1,000,001 alone",
    "refused 24, a pair a byte shorter alone",
];
const OF_CORRECTIONS: [&str; 17] = [
    "accepted, by itself, and it is charged",
    "accepted, cancelled, and it was charged",
    "accepted, no statement at all",
    "accepted, by bytes that are no record",
    "accepted, refused before and accepted now",
    "accepted, accepted before and refused now",
    "accepted, a later trip is refused since",
    "accepted, a later trip costs more",
    "accepted, a later trip costs less",
    "accepted, the holder pays more",
    "accepted, the holder pays less",
    "accepted, one pays more and another less",
    "refused 23, n is 0",
    "refused 23, n is one beyond the last record",
    "refused 23, a broken frame at n",
    "refused 12, a byte too few for the statements alone",
    "refused 12, 247 bytes for the differences alone",
];

/// Says what is missing; nothing where nothing is.
pub fn missing(suite: &Suite) -> Option<String> {
    let mut due: Vec<String> = Vec::new();
    for (function, refusals) in refusals() {
        due.push(format!("{function}: accepted"));
        due.extend(refusals.iter().map(|refusal| format!("{function}: refused {refusal}")));
    }
    for function in ["settle", "quote", "post", "settle_month"] {
        due.extend(of_trips().iter().map(|thing| format!("{function}: {thing}")));
    }
    due.extend(OF_MONTHS.map(|thing| format!("settle_month: {thing}")));
    due.extend(OF_CORRECTIONS.map(|thing| format!("correct: {thing}")));
    let missing: Vec<String> = due.into_iter().filter(|thing| !suite.shown.contains_key(thing)).collect();
    if !missing.is_empty() {
        return Some(format!("not shown: {}", missing.join("; ")));
    }
    let many = suite.cases.len();
    (many < FEWEST_CASES).then(|| format!("{many} cases, and {FEWEST_CASES} are due"))
}
