//! Charge records read: those that settling wrote, others in range, and damaged ones.

use super::random::Random;
use super::run::{Difference, Run};
use super::statements::{asked, framed, Asked, Draft, ALONE, HEAD, PERSONS_INSIDE, PERSONS_OUTSIDE};
use crate::model::reading::read_record;

/// The fields of the largest record.
pub const LARGEST_FIELDS: usize = 324;

/// How it is told of what settling wrote.
pub const SETTLED: &str = "written by settling";
pub const SECOND: &str = "the second of two";

/// In each part of a run so many records that settling did not write.
const OTHERS: usize = 8;

/// Of the statements that were settled in a part of the run, each eighth is read back; and other records besides.
pub fn readings(random: &mut Random, run: &mut Run) -> Result<(), Difference> {
    for statement in run.take_settled().into_iter().step_by(8) {
        read_back(random, run, statement)?;
    }
    for _ in 0..OTHERS {
        run.check_read(&asked(random))?;
    }
    Ok(())
}

/// What settling wrote is read record by record to its end, and nothing of it is refused. Behind it stands anything.
fn read_back(random: &mut Random, run: &mut Run, written: Vec<u8>) -> Result<(), Difference> {
    let length = written.len();
    let behind = random.pick(&[0, 0, 1, 3, 4, 26]);
    let statement = [written, vec![random.next() as u8; behind]].concat();
    let mut at = 0;
    while at < length {
        let mut story = vec![SETTLED];
        if at > 0 {
            story.push(SECOND);
        }
        let asked = Asked { statement: statement.clone(), at, room: LARGEST_FIELDS, story };
        match run.check_read(&asked)? {
            Some(size) => at += size,
            None => return Err(run.difference_reading(&asked, &["what settling wrote is refused".to_string()])),
        }
    }
    if at == length {
        Ok(())
    } else {
        Err("the records that settling wrote do not end where it ended".to_string())
    }
}

/// A good record of each kind, and all that lie one step away from it: each field at its edges and past them, each bit
/// flipped, each cut, each offset, each length of the fields, each kind and each length.
pub fn sweep(random: &mut Random, run: &mut Run) -> Result<(), Difference> {
    let alone = Draft::alone([14_113_370, 2, 5, 25], vec![320, 0, 3_790_000, 9]);
    let party = alone.clone().with(random, [1, 2, 3]);
    let largest = alone.clone().with(random, [10, 10, 10]);
    for good in [party, alone, largest] {
        values(run, &good)?;
        bits_and_cuts(run, &good)?;
        offsets_and_rooms(run, &good)?;
        kinds_and_lengths(run, &good)?;
    }
    Ok(())
}

fn read_bytes(run: &mut Run, statement: Vec<u8>, story: &'static str) -> Result<(), Difference> {
    run.check_read(&Asked { statement, at: 0, room: LARGEST_FIELDS, story: vec![story] }).map(drop)
}

fn values(run: &mut Run, good: &Draft) -> Result<(), Difference> {
    for (field, edges) in HEAD.iter().enumerate() {
        for &value in edges.inside.iter().chain(edges.outside) {
            let mut draft = good.clone();
            draft.head[field] = value;
            read_bytes(run, draft.bytes(), edges.name)?;
        }
    }
    for place in 0..good.alone.len() {
        for &value in ALONE.inside.iter().chain(ALONE.outside) {
            let mut draft = good.clone();
            draft.alone[place] = value;
            read_bytes(run, draft.bytes(), ALONE.name)?;
        }
    }
    for place in 0..good.persons.len() {
        for person in PERSONS_INSIDE.into_iter().chain(PERSONS_OUTSIDE) {
            let mut draft = good.clone();
            draft.persons[place] = person;
            read_bytes(run, draft.bytes(), "a person's charge, or the cap beside it")?;
        }
    }
    Ok(())
}

fn bits_and_cuts(run: &mut Run, good: &Draft) -> Result<(), Difference> {
    let bytes = good.bytes();
    for place in 0..bytes.len() {
        for bit in 0..8 {
            let mut flipped = bytes.clone();
            flipped[place] ^= 1 << bit;
            read_bytes(run, flipped, "a flipped bit")?;
        }
        read_bytes(run, bytes[..place].to_vec(), "cut short")?;
    }
    Ok(())
}

/// Two records one after another: each offset in both and behind them, and fields of each length for the second.
fn offsets_and_rooms(run: &mut Run, good: &Draft) -> Result<(), Difference> {
    let bytes = good.bytes();
    let statement = [bytes.clone(), bytes.clone()].concat();
    let beyond = [statement.len() + 1_000, usize::MAX - 1, usize::MAX];
    for at in (0..statement.len() + 5).chain(beyond) {
        let asked = Asked { statement: statement.clone(), at, room: LARGEST_FIELDS, story: vec!["an offset"] };
        run.check_read(&asked)?;
    }
    for room in 0..=good.fields() + 2 {
        let (statement, at) = (statement.clone(), bytes.len());
        run.check_read(&Asked { statement, at, room, story: vec!["fields of another length"] })?;
    }
    Ok(())
}

fn kinds_and_lengths(run: &mut Run, good: &Draft) -> Result<(), Difference> {
    let body = good.body();
    for kind in (0..=16).chain([256 + 4, 256 + 6, 1_024, 1_536, 65_535]) {
        read_bytes(run, framed(kind, &body), "its kind")?;
    }
    for kind in [4, 6] {
        for length in 0..=1_023 {
            let body: Vec<u8> = body.iter().copied().chain(std::iter::repeat(0)).take(length).collect();
            read_bytes(run, framed(kind, &body), "a body of another length")?;
        }
    }
    Ok(())
}

/// Whether the record that is asked for is there and in range, and what it is then.
pub fn fields_in(asked: &Asked) -> Option<crate::model::reading::Fields> {
    read_record(&asked.statement, asked.at).ok().map(|(fields, _)| fields)
}
