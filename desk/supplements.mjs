// Supplements: what trips of closed months cost that are not as the books have them. Today's trips are settled from the
// books before, and what the closed books say was charged is taken off. The closed books stay as they are.
import { parsedBooks } from './books.mjs';
import { accountIn, fitsAreas } from './closings.mjs';
import { chargedIn, collectedIn, differenceRows, sumRows } from './differences.mjs';
import { decoded } from './encoding.mjs';
import { keptMonth } from './kept.mjs';
import { changesIn, tellUnknown } from './late.mjs';
import { tripsByMember, unsettled } from './trips.mjs';

/** Where nothing is to be supplemented. */
export const NO_SUPPLEMENTS = { rows: [], differences: [], accounts: new Map(), first: null, refused: 0 };

/**
 * The supplements of all members whose trips are not as the books have them: `rows` as the wages have them, each with a
 * month's trips, refusals and cents less those that the books say; `differences` as their table has them; `accounts`,
 * member → book, and what is kept of the month, at the end of the last closed month; `first`, the first closing that
 * would be another now; `refused`, how many of the trips are. What cannot be priced is a mistake, and a warning where
 * the desk is `tolerant`.
 *
 * `settle(span, name, account, trips, counts)` settles a member's trips of a span, and tells of those refused that
 * count.
 */
export function supplementsOf(desk, tariff, { books, closings, spans, settle, inOrder }) {
    const { editions } = tariff;
    const changed = spans.map((span) => changedSpan(span, editions));
    tellUnkept(desk, spans);
    tellUnknown(desk.mistakes, spans, books.period);
    const priced = [];
    for (const [name, at] of inOrder(firstSpans(changed))) {
        const chain = changed.slice(at);
        const base = baseOf(chain[0], closings, editions);
        const fault = base?.fault ?? faultIn(name, chain);
        tellPlaces(desk, name, chain, fault);
        if (fault === null) priced.push(pricedMember(desk, name, chain, accountIn(base, name), settle));
    }
    return priced.length === 0 ? NO_SUPPLEMENTS : joined(priced);
}

const NO_CHANGES = { late: new Set(), same: [], places: [], missing: new Map() };

/** A span with what is not as its books have it, and its trips by member. */
function changedSpan(span, editions) {
    const { same, places, ...changes } = span.trips ? changesIn(span, editions) : NO_CHANGES;
    const [own, then, named] = [span.own, same, places].map(tripsByMember);
    return { ...span, ...changes, own, same: then, places: named };
}

/** Members with the number of the first span in which their trips are not as the books have them. */
function firstSpans(spans) {
    const first = new Map();
    spans.forEach(({ places }, i) => {
        for (const member of places.keys()) if (!first.has(member)) first.set(member, i);
    });
    return first;
}

function joined(priced) {
    const all = (key) => priced.flatMap((member) => member[key]);
    return {
        ...{ rows: all('rows'), differences: all('differences') },
        accounts: new Map(priced.map(({ name, account }) => [name, account])),
        first: priced.reduce((first, { from }) => (first === null || from < first ? from : first), null),
        refused: priced.reduce((sum, { refused }) => sum + refused, 0),
    };
}

// ---- What is told

/** Corrections of a month whose books keep no trips: what was charged for these is not known. */
function tellUnkept(desk, spans) {
    for (const { trips, unkept, file } of spans) {
        if (trips !== undefined) continue;
        for (const { month, ...place } of unkept) tell(desk, place, 'supplementUnkept', { month, books: file.name });
    }
}

function tell({ mistakes, tolerant }, { file, line }, key, values) {
    return tolerant ? mistakes.warning(file, line, key, values) : mistakes.error(file, line, key, values);
}

/** Names each trip that is priced as a supplement, or why it is not. */
function tellPlaces(desk, name, chain, fault) {
    for (const { places, file: { name: books } } of chain) {
        for (const { month, file, line } of places.get(name) ?? []) {
            const values = { member: name, month, books };
            if (fault === null) desk.mistakes.note('warning', file, line, 'supplement', values); // asked for: no error
            else tell(desk, { file, line }, fault.key, { ...values, ...fault.values });
        }
    }
}

// ---- What cannot be priced

/** The books from which a span went on, null where there were none, or what is amiss with them. */
function baseOf({ before, file }, closings, editions) {
    if (before === null) return null;
    const given = closings.get(before);
    const books = given ? parsedBooks(decoded(given.bytes).text ?? '') : null;
    if (books === null) return { fault: { key: 'supplementBefore', values: { closed: file.name, before } } };
    if (!fitsAreas(editions, books)) return { fault: { key: 'supplementTariff', values: { before: given.name } } };
    return books;
}

/** Why a member's trips cannot be compared with what the books say; null where they can. */
function faultIn(name, chain) {
    for (const [i, { file, before, missing }] of chain.entries()) {
        const last = chain[i - 1];
        if (last && before !== last.period) {
            return { key: 'supplementApart', values: { closed: file.name, before: last.file.name } };
        }
        const own = missing.get(name) ?? [];
        if (own.length > 0) {
            return { key: 'supplementMissing', values: { closed: file.name, count: own.length, first: own[0].in } };
        }
    }
    return null;
}

// ---- Pricing

/** A member's trips from the first span on, as the books have them and as they are now, month by month. */
function pricedMember(desk, name, chain, account, settle) {
    const months = new Map();
    let [was, now] = [account, account];
    for (const span of chain) {
        const [own, same, places, trips] = ['own', 'same', 'places', 'trips'].map((sort) => span[sort].get(name) ?? []);
        was = settle(span, name, was, same.map(unsettled), () => false);
        now = settle(span, name, now, own, (trip) => span.late.has(trip));
        const kept = trips.map((trip) => ({ ...trip, month: keptMonth(trip, desk.monthZone) }));
        addTo(months, span, { kept, was: was.entries, now: now.entries, places });
    }
    const due = [...months.values()].filter(isChanged).sort((one, other) => (one.month < other.month ? -1 : 1));
    return {
        ...{ name, from: chain[0].period, account: { book: now.book, kept: now.kept } },
        rows: due.map((own) => wagesRow(desk, name, own)),
        differences: due.flatMap((own) => differencesIn(desk, name, own)),
        refused: due.flatMap((own) => own.now).filter(({ inPeriod, accepted }) => inPeriod && !accepted).length,
    };
}

/** Adds a span's trips of each sort to their months; these have the span's ceiling, or null. */
function addTo(months, { ceiling = null }, sorts) {
    for (const [sort, trips] of Object.entries(sorts)) {
        for (const trip of trips) {
            const { month } = trip;
            if (!months.has(month)) months.set(month, { month, ceiling, kept: [], was: [], now: [], places: [] });
            months.get(month)[sort].push(trip);
        }
    }
}

const acceptedIn = (trips) => trips.filter(({ cents }) => cents !== undefined).length;

/** Whether a month has a row: its sums are others, or a trip of it was named. */
function isChanged({ kept, now, places }) {
    const same = [acceptedIn, chargedIn].every((sum) => sum(kept) === sum(now));
    return places.length > 0 || !same || kept.length !== now.length;
}

/** What was collected in a closed month by its books: of what was charged, no more than their ceiling. */
const collectedThen = ({ kept, ceiling }) => Math.min(chargedIn(kept), ceiling ?? Infinity);

function wagesRow({ roster }, member, own) {
    const { month, ceiling, kept, now } = own;
    const [then, accepted] = [kept, now].map(acceptedIn);
    const refused = now.length - accepted - (kept.length - then);
    const number = roster ? { number: roster.get(member)?.number ?? null } : {}; // one that was misspelt has none
    const charged = ceiling === null ? {} : { charged: chargedIn(now) - chargedIn(kept) };
    const cents = collectedIn(now) - collectedThen(own);
    return { member, period: month, trips: accepted - then, refused, cents, ...number, ...charged, supplement: 'yes' };
}

/**
 * A month's differences, rider by rider where today's tariff gives what the books say for the trips that they have;
 * else that is told, and the sums alone are there.
 */
function differencesIn({ mistakes }, member, own) {
    const { month, ceiling, kept, was, now, places } = own;
    const [charged, due] = [chargedIn(kept), chargedIn(was)];
    if (charged === due) return differenceRows(member, was, now, { ceiling, supplement: month });
    const { file, line } = places[0] ?? now[0] ?? was[0];
    mistakes.note('warning', file, line, 'supplementPrices', { member, month, charged, due });
    const collected = ceiling === null ? null : [collectedThen(own), collectedIn(now)];
    return sumRows(member, [charged, chargedIn(now)], collected, month);
}
