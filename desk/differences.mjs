// The table of differences: what each rider and bicycle of a member was charged before the corrections and after them.
import { tripsByMember, unsettled } from './trips.mjs';
import { paidOf, riderName, tableText } from './wages.mjs';

/**
 * Member → rows, of those whom corrections concern and who have something to show: a corrected trip that counts, or a
 * difference. `read` are all trips as they were, `was` those of them that are due, `members` are settled as it is now,
 * and `others` are concerned besides. `settle(name, trips)` settles them as they were.
 */
export function differencesOf({ read, was, members, others, counts, settle, ceiling }) {
    const names = new Set([...concernedBy(read, () => true), ...others]);
    const within = concernedBy(read, counts);
    const before = tripsByMember(was.filter(({ member }) => names.has(member)).map(unsettled));
    const after = new Map(members.map(({ name, entries }) => [name, entries]));
    const groups = new Map();
    for (const name of names) {
        const { entries } = settle(name, before.get(name) ?? []);
        const [old, now] = [entries, after.get(name) ?? []].map((list) => list.filter(counts));
        const rows = differenceRows(name, old, now, { ceiling });
        if (within.has(name) || rows.some(({ difference }) => difference !== 0)) groups.set(name, rows);
    }
    return groups;
}

/** The members of corrected trips that count, as they were and as they are. */
function concernedBy(read, counts) {
    const corrected = read.filter((trip) => trip.corrected !== undefined);
    const both = corrected.flatMap((trip) => [trip, trip.corrected]).filter((trip) => trip !== null);
    return new Set(both.filter(counts).map(({ member }) => member));
}

// ---- Rows

/**
 * Rows {member, who, rider, before, after, difference, supplement} of all who ride in one of both, by number, and at
 * the end the member's sum, under a ceiling what is charged and what is collected. Entries are those before and after,
 * and `supplement` is the month of one, or null.
 */
export function differenceRows(member, before, after, { ceiling = null, supplement = null }) {
    const [old, now] = [before, after].map(chargesBySlot);
    const slots = [...new Set([...old.keys(), ...now.keys()])].sort((one, other) => one - other);
    const rows = slots.map((slot) => {
        const { who } = old.get(slot) ?? now.get(slot);
        const amounts = [old, now].map((charges) => charges.get(slot)?.cents ?? 0);
        return rowOf(member, { who, rider: riderName(who) }, amounts, supplement);
    });
    const charged = [before, after].map(chargedIn);
    const collected = ceiling === null ? null : [before, after].map(collectedIn);
    return [...rows, ...sumRows(member, charged, collected, supplement)];
}

/** A member's sums, before and after each: of all that is charged and, where it is another, of what is collected. */
export function sumRows(member, charged, collected, supplement) {
    const row = (rider, amounts) => rowOf(member, { who: null, rider }, amounts, supplement);
    return collected === null ? [row('sum', charged)] : [row('charged', charged), row('collected', collected)];
}

function rowOf(member, { who, rider }, [before, after], supplement) {
    return { member, who, rider, before, after, difference: after - before, supplement };
}

/** What all trips are charged, and what they collect; of refused ones nothing is known. */
export const chargedIn = (trips) => trips.reduce((sum, { cents = 0 }) => sum + cents, 0);
export const collectedIn = (entries) => entries.reduce((sum, entry) => sum + (paidOf(entry) ?? 0), 0);

/** What was charged to each, by the place among riders and bicycles. */
function chargesBySlot(entries) {
    const charges = new Map();
    const riders = entries.flatMap(({ parts }) => (parts ?? []).flatMap((part) => part.riders));
    for (const { slot, charge, sort, number } of riders) {
        charges.set(slot, { who: { sort, number }, cents: (charges.get(slot)?.cents ?? 0) + charge });
    }
    return charges;
}

// ---- As text

const COLUMNS = ['member', 'rider', 'before', 'after', 'difference'];

/** The table as CSV or JSON; where there is a supplement, the last column has its month. */
export function differencesText({ differences }, format, language) {
    const supplemented = differences.some(({ supplement }) => supplement !== null);
    const columns = supplemented ? [...COLUMNS, 'supplement'] : COLUMNS;
    return tableText(columns, differences.map((row) => columns.map((column) => row[column])), format, language);
}
