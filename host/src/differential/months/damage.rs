//! Calls that may be refused by 24 or by settling's refusals, each just outside what is allowed, and pairs that do not fit the
//! trip: of another month, or with more collected than the ceiling allows.

use super::MonthDraft;
use crate::differential::damage;
use crate::differential::random::Random;
use crate::model::month::{month_of, Kept, KEPT_BYTES, MOST};

/// A way to damage a call, and what to call it.
type Damage = (&'static str, fn(&mut Random, &mut MonthDraft));

const DAMAGES: [Damage; 12] = [
    ("the ceiling", ceiling),
    ("a ceiling below the amount", lowered_ceiling),
    ("the length of what is kept", kept_length),
    ("the amount that is kept", kept_amount),
    ("the month that is kept", kept_month),
    ("the month that is kept", kept_month),
    ("flipped bits of what is kept", flipped_bits),
    ("the length of what is due", due_length),
    ("the length of what is due", due_length),
    ("what settling is given", given_to_settling),
    ("what settling is given", given_to_settling),
    ("what settling is given", given_to_settling),
];

/// One damage, and at times another one, so that the order of the refusals is seen.
pub fn damage(random: &mut Random, draft: &mut MonthDraft) {
    loop {
        let (name, make) = random.pick(&DAMAGES);
        make(random, draft);
        draft.draft.case.story.push(name);
        if !random.chance(40) {
            break;
        }
    }
}

fn ceiling(random: &mut Random, draft: &mut MonthDraft) {
    let most = MOST as u32;
    draft.ceiling = random.pick(&[0, most, most, most + 1, most + 1, most + 1, 1 << 20, 1 << 31, u32::MAX]);
}

/// The ceiling at what was collected or below it, in the trip's month.
fn lowered_ceiling(random: &mut Random, draft: &mut MonthDraft) {
    let amount = random.within(1, 40_000) as u32;
    put_kept(draft, month_of(draft.draft.plan.check_in), amount);
    draft.ceiling = amount - random.pick(&[0, 1, 1, amount / 2, amount]);
}

fn kept_length(random: &mut Random, draft: &mut MonthDraft) {
    let few = [0, 1, 4, 7, 7, 7, 9, 9, 9, 2 * KEPT_BYTES];
    draft.kept.resize(random.pick(&few), random.pick(&[0, 1]));
}

/// Of the trip's month or of the one that is kept.
fn kept_amount(random: &mut Random, draft: &mut MonthDraft) {
    let most = MOST as u32;
    let month = if random.chance(70) { month_of(draft.draft.plan.check_in) } else { present(draft).month };
    let some = random.below(u64::from(draft.ceiling) + 2) as u32;
    put_kept(draft, month, random.pick(&[some, some, most - 1, most, most + 1, most + 1, 1 << 24, u32::MAX]));
}

/// Around the trip's month, or one that no trip has.
fn kept_month(random: &mut Random, draft: &mut MonthDraft) {
    let month = month_of(draft.draft.plan.check_in);
    let earlier = random.below(month + 1);
    let month =
        random.pick(&[month, month + 1, month.saturating_sub(1), earlier, 0, 1_199, 1_200, month + 256, 1 << 31]);
    let amount = random.pick(&[0, 1, draft.ceiling.min(MOST as u32), MOST as u32]);
    put_kept(draft, month, amount);
}

fn flipped_bits(random: &mut Random, draft: &mut MonthDraft) {
    for _ in 0..random.pick(&[1, 1, 2, 8]) {
        let place = random.index(KEPT_BYTES);
        if let Some(byte) = draft.kept.get_mut(place) {
            *byte ^= 1 << random.below(8);
        }
    }
}

fn due_length(random: &mut Random, draft: &mut MonthDraft) {
    draft.due = random.pick(&[0, 1, 2, 3, 3, 4, 5, 8, 532]);
}

/// Tariff, book, trip or statement, as they are damaged without a ceiling.
fn given_to_settling(random: &mut Random, draft: &mut MonthDraft) {
    damage::damage(random, &mut draft.draft);
}

fn present(draft: &MonthDraft) -> Kept {
    Kept::read(&draft.kept).unwrap_or(Kept { month: 0, amount: 0 })
}

fn put_kept(draft: &mut MonthDraft, month: u64, amount: u32) {
    draft.kept = Kept { month, amount: amount.into() }.bytes();
}
