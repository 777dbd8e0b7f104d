//! Rolls of which one record is exchanged: for itself, for nothing, for another trip and for bytes that are none, with damaged
//! calls in between; and all that lies one step away from some good ones: numbers, replacements and lengths.

mod calls;
mod counts;
mod replacements;
mod rolls;
mod run;

pub use counts::Corrections;

use super::random::Random;
use super::run::{Difference, Run};
use super::trips::Plan;
use crate::model::correction::DIFFERENCES_BYTES;
use crate::model::statement::LARGEST_STATEMENT;
use crate::model::{correct, read_file};
use calls::CorrectionCase;
use rolls::Rolled;

/// Corrections of one roll.
const STEPS: u64 = 12;

/// A chain of corrections of one roll: a third of them damaged.
pub fn chain(random: &mut Random, run: &mut Run) -> Result<(), Difference> {
    let rolled = Rolled::make(random);
    for _ in 0..STEPS {
        let mut case = some_case(random, &rolled);
        if random.chance(35) {
            damage(random, &mut case);
        }
        run.check_correction(&case)?;
    }
    Ok(())
}

/// Any record of the roll, with some replacement and room for all; a roll of no record has none, and is refused.
fn some_case(random: &mut Random, rolled: &Rolled) -> CorrectionCase {
    let (tariff, roll) = (rolled.tariff.clone(), rolled.bytes());
    let place = random.index(rolled.offered.len().max(1));
    let (name, replacement) = replacements::of(random, rolled, place);
    let (n, story) = (1 + place as u32, vec!["a record of a roll", name]);
    let mut case = CorrectionCase { tariff, roll, n, replacement, room: 0, differences: 0, story };
    case.room = needed(&case) + random.pick(&[0, 0, 1, 5, LARGEST_STATEMENT]);
    case.differences = DIFFERENCES_BYTES + random.pick(&[0, 0, 1, 8, 100]);
    case
}

/// What a correction of the nth record met, in words, given tariff, roll and replacement and so much room for the statements and for the
/// differences.
pub fn correction_met(n: u32, given: [&[u8]; 3], [room, differences]: [usize; 2]) -> Vec<&'static str> {
    let [tariff, roll, replacement] = given.map(<[u8]>::to_vec);
    let call = CorrectionCase { tariff, roll, n, replacement, room, differences, story: Vec::new() };
    counts::met(&call, &run::by_the_model(&call, &vec![0; room], &vec![0; differences]))
}

/// The bytes of all statements; 0 where it is refused.
fn needed(case: &CorrectionCase) -> usize {
    let mut statements = vec![0; LARGEST_STATEMENT * (1 + case.roll.len() / 4)];
    let CorrectionCase { tariff, roll, n, replacement, .. } = case;
    correct(tariff, roll, *n, replacement, &mut statements, &mut [0; DIFFERENCES_BYTES]).unwrap_or(0)
}

/// One damage, and at times another one, so that the order of the refusals is seen.
fn damage(random: &mut Random, case: &mut CorrectionCase) {
    loop {
        match random.below(4) {
            0 => case.n = other_number(random, case.n),
            1 => case.room = random.pick(&[0, 1, case.room.saturating_sub(1), needed(case).saturating_sub(1)]),
            2 => case.differences = random.pick(&[0, 1, 247, 247, 248, 249]),
            _ => spoil(random, &mut case.tariff),
        }
        case.story.push("damaged");
        if !random.chance(40) {
            break;
        }
    }
}

fn other_number(random: &mut Random, n: u32) -> u32 {
    let many = random.below(14) as u32;
    random.pick(&[0, 0, n.wrapping_add(1), many, many, 65_535, 65_536, n.wrapping_add(65_536), 1 << 31, u32::MAX])
}

/// A tariff cut short, with a byte more, or with some bits that are others.
fn spoil(random: &mut Random, tariff: &mut Vec<u8>) {
    match random.below(4) {
        0 => tariff.truncate(random.index(tariff.len().max(1))),
        1 => tariff.push(random.below(256) as u8),
        _ => {
            for _ in 0..random.pick(&[1, 1, 4]) {
                let place = random.index(tariff.len().max(1));
                if let Some(byte) = tariff.get_mut(place) {
                    *byte ^= 1 << random.below(8);
                }
            }
        }
    }
}

/// What lies one step away from some good corrections.
pub fn sweep(random: &mut Random, run: &mut Run) -> Result<(), Difference> {
    let rolled = rolls::by_the_sample();
    for torn in [vec![], vec![0], vec![9, 0, 7, 0, 1]] {
        let rolled = Rolled { tail: torn, ..rolled.clone() };
        numbers(run, &rolled)?;
        for place in 0..rolled.offered.len() {
            replaced(run, &rolled, place)?;
        }
    }
    lengths(run, &rolled)?;
    for rolled in [rolls::over_two_editions(random), rolls::of_many(random)] {
        for place in 0..rolled.offered.len() {
            replaced(run, &rolled, place)?;
        }
    }
    Ok(())
}

/// A good correction of one record: it is cancelled.
fn cancelled(rolled: &Rolled, place: usize) -> CorrectionCase {
    CorrectionCase {
        tariff: rolled.tariff.clone(),
        roll: rolled.bytes(),
        n: 1 + place as u32,
        replacement: Vec::new(),
        room: LARGEST_STATEMENT * rolled.offered.len(),
        differences: DIFFERENCES_BYTES,
        story: vec!["a step away from a good correction"],
    }
}

/// Numbers around those of the records and around the most, with a faultless tariff and without, with room and without.
fn numbers(run: &mut Run, rolled: &Rolled) -> Result<(), Difference> {
    let many = rolled.offered.len() as u32;
    let far = [255, 256, 257, 65_534, 65_535, 65_536, 65_537, 1 << 24, 1 << 31, u32::MAX];
    for n in (0..=many + 3).chain(far) {
        let good = CorrectionCase { n, ..cancelled(rolled, 0) };
        let tariff = good.tariff[..good.tariff.len() - 1].to_vec();
        run.check_correction(&CorrectionCase { tariff, ..good.clone() })?;
        run.check_correction(&CorrectionCase { room: 0, differences: 0, ..good.clone() })?;
        run.check_correction(&good)?;
    }
    Ok(())
}

/// A record replaced by itself, by each of the others, by the start of each, by two at once, and by itself with another party or at
/// another time.
fn replaced(run: &mut Run, rolled: &Rolled, place: usize) -> Result<(), Difference> {
    let good = cancelled(rolled, place);
    let mut all: Vec<Vec<u8>> = rolled.offered.iter().map(|offered| offered.record.clone()).collect();
    let own = all[place].clone();
    all.extend([all.concat(), [&own[..], &[0]].concat(), [&own[..], &own].concat()]);
    all.extend((0..own.len()).map(|length| own[..length].to_vec()));
    let plan = &rolled.offered[place].plan;
    all.extend(parties().map(|party| Plan { party, ..plan.clone() }.bytes()));
    all.extend(replacements::SHIFTS.map(|minutes| replacements::moved(plan, minutes).bytes()));
    for replacement in all {
        run.check_correction(&CorrectionCase { replacement, ..good.clone() })?;
    }
    Ok(())
}

fn parties() -> impl Iterator<Item = [u64; 3]> {
    let few = [0, 1, 2, 10, 11];
    few.into_iter().flat_map(move |adults| {
        few.into_iter().flat_map(move |children| few.map(|bicycles| [adults, children, bicycles]))
    })
}

/// Every length around those that are enough, of the statements and of the differences, and with a replacement that leaves none.
fn lengths(run: &mut Run, rolled: &Rolled) -> Result<(), Difference> {
    let good = cancelled(rolled, 0);
    let enough = needed(&good);
    for differences in [0, 1, 8, 247, 248, 249, 255, 256, 496] {
        for room in (0..=3).chain(enough.saturating_sub(30)..=enough + 3).chain([enough + 256, 2 * enough]) {
            run.check_correction(&CorrectionCase { room, differences, ..good.clone() })?;
        }
    }
    for differences in 0..=DIFFERENCES_BYTES + 16 {
        run.check_correction(&CorrectionCase { differences, ..good.clone() })?;
    }
    let alone = Rolled { offered: rolled.offered[..1].to_vec(), ..rolled.clone() };
    for room in [0, 1, LARGEST_STATEMENT] {
        run.check_correction(&CorrectionCase { room, ..cancelled(&alone, 0) })?;
    }
    assert!(read_file(&good.tariff).is_ok() && enough > 0, "a good correction");
    Ok(())
}
