// A member's account: trips settled one after another on the member's book, and what they come to, window by window.
// Every amount is the library's. What is added up here is compared with the book's own words after each trip.
import { keptOf } from './ceiling.mjs';
import { clockOf } from './clock.mjs';
import { WINDOW, inForce } from './editions.mjs';
import { hasStops, momentIn, putTrip, takeStops } from './trips.mjs';

// ---- The book's words (docs/FORMAT.md, "The book")

const RIDERS = 21;
const BICYCLES = 10;

const viewOf = (book) => new DataView(book.buffer, book.byteOffset, book.length);
const word = (view, at) => view.getUint32(4 * at, true);

const tripsIn = (view) => word(view, 0);
const openingIn = (view) => word(view, 1);
const lastCheckOutIn = (view) => word(view, 2);
const secondIn = (view, rider, area) => word(view, 3 + 64 * rider + 2 * area);
const allIn = (view, rider, area) => word(view, 3 + 64 * rider + 2 * area + 1);
const coverIn = (view, bicycle) => word(view, 1347 + bicycle);
const paymentsIn = (view, bicycle) => word(view, 1357 + bicycle);
const editionIn = (view) => word(view, 1367);

/** The number of the edition that the book's window is under; 0 in a fresh one. */
export const bookEdition = (book) => editionIn(viewOf(book));

/** The areas that the book's words are of; of a fresh one, or one that is damaged, the first edition's. */
const areasOf = (view, editions) => (editions[editionIn(view) - 1] ?? editions[0]).areas;

/** When the book's last trip ended; null in a fresh one. */
export function lastCheckOut(book) {
    const view = viewOf(book);
    return tripsIn(view) === 0 ? null : lastCheckOutIn(view);
}

/** The minute to which the book's window is open; null in a fresh one. */
export function openUntil(book) {
    const view = viewOf(book);
    return tripsIn(view) === 0 ? null : openingIn(view) + WINDOW;
}

/**
 * What one of a party has paid in the window, by the book: of a rider the all-classes sum in the state, of a bicycle
 * its payments and the flat of its covering area, to which the differences of R11.2 add up.
 */
function paidByBook(view, areas, slot) {
    if (slot < RIDERS) return allIn(view, slot, 0);
    const bicycle = slot - RIDERS;
    const cover = coverIn(view, bicycle); // its area's number, counted from 1
    const area = cover === 0 ? null : areas[cover - 1];
    return paymentsIn(view, bicycle) + (area?.kind === 1 ? area.bicycle : 0);
}

/** The sums of a window's riders where they are not 0, for whoever shows how full a cap is. */
function sumsOf(view, areas) {
    const sums = [];
    for (let slot = 0; slot < RIDERS; slot += 1) {
        const { sort, number } = PARTY[slot];
        if (allIn(view, slot, 0) > 0) sums.push({ sort, number, areas: areaSums(view, slot, areas) });
    }
    return sums;
}

function areaSums(view, slot, areas) {
    const sums = [];
    for (let area = 0; area < areas.length; area += 1) {
        const all = allIn(view, slot, area);
        if (all > 0) sums.push({ area, second: secondIn(view, slot, area), all });
    }
    return sums;
}

/** Who has which place among riders and bicycles. */
const PARTY = Array.from({ length: RIDERS + BICYCLES }, (_, slot) => {
    if (slot === 0) return { sort: 'holder', number: 1 };
    if (slot <= 10) return { sort: 'adult', number: slot };
    if (slot < RIDERS) return { sort: 'child', number: slot - 10 };
    return { sort: 'bicycle', number: slot - RIDERS + 1 };
});

/** The place of a party's charge number i. */
function slotOf(i, { adults, children }) {
    if (i <= adults) return i;
    if (i <= adults + children) return 11 + i - 1 - adults;
    return RIDERS + i - 1 - adults - children;
}

// ---- Statements

/** A part of a trip from the fields of its charge record, with each of the party's charge. */
function partOf(fields) {
    const { area, km, minutes, opening, charges } = fields;
    return { area, km, minutes, opening, riders: charges.map((charge, i) => chargeOf(charge, slotOf(i, fields))) };
}

function chargeOf({ cents, off, capArea, capClass }, slot) {
    const { sort, number } = PARTY[slot];
    if (sort === 'bicycle') return { sort, number, slot, price: null, charge: cents, off: null, cap: null };
    const cap = off === 0 ? null : { area: capArea, class: capClass };
    return { sort, number, slot, price: cents + off, charge: cents, off, cap };
}

/** The sum of a trip's charges. */
export function centsOf(parts) {
    let sum = 0;
    for (const { riders } of parts) for (const { charge } of riders) sum += charge;
    return sum;
}

// ---- Settling

/** Where what was added up here and the book's words differ. */
export class Disagreement extends Error {
    constructor(member, what) {
        super(`${member}: ${what}`);
        Object.assign(this, { member, what });
    }
}

/**
 * Settles a member's trips, which come in order, on the book, and makes entries of them. `inPeriod` says which of them
 * count; the others came before. Each is priced once, on the book that its window began in. One whose stops are not all
 * in the edition that settles it is told to `note(trip, key, values)`, and is none of the entries. `month`, {ceiling,
 * kept}, is there under a monthly ceiling: each entry then has what it collects.
 */
export function settleMember({ engine, tariff, zone, name, book, month, trips, inPeriod, note }) {
    const open = engine.open(tariff.bytes, book, putTrip, month);
    const account = { name, view: open.view(), windows: [], clock: clockOf(zone), editions: tariff.editions };
    const areas = areasOf(account.view, tariff.editions);
    account.opening = tripsIn(account.view) === 0 ? null : openingIn(account.view);
    account.paid = PARTY.map((_, slot) => paidByBook(account.view, areas, slot));
    account.month = month ? { ceiling: month.ceiling, name: null, charged: 0, collected: 0 } : null;
    const entries = [];
    for (const entry of trips) {
        const edition = editionFor(account, entry);
        if (tariff.editions.length > 1 && !hasStops(entry, edition, (...told) => note(entry, ...told))) continue;
        if (entry.edition !== edition) takeStops(entry, edition);
        entry.inPeriod = inPeriod(entry);
        settleEntry(account, open, entry);
        entries.push(entry);
    }
    closeWindow(account, sumsOf(account.view, areasOf(account.view, account.editions)));
    return { name, entries, windows: account.windows, book: open.book(), kept: open.kept() };
}

/** The number of the edition that settles a trip: the book's while its window is open, else by the check-in. */
function editionFor({ opening, view, editions }, { checkIn, checkOut }) {
    const belongs = opening !== null && checkOut.minute <= opening + WINDOW;
    return belongs ? editionIn(view) : inForce(editions, checkIn.minute).number;
}

function settleEntry(account, open, entry) {
    const sums = sumsBefore(account, entry);
    const answer = open.settle(entry);
    entry.accepted = answer.accepted;
    if (answer.accepted) accept(account, entry, answer.records.map(partOf), sums);
    else entry.refusal = { number: answer.refusal.number, place: answer.refusal.place };
    if (answer.accepted && account.month) collect(account, entry, answer.due, keptOf(open.kept()));
    putInWindow(account, entry);
}

/** The sums of the window that a trip ends, since it checks out when that is over (R9.2); null of any other trip. */
function sumsBefore({ opening, view, editions }, { checkOut }) {
    const over = opening !== null && checkOut.minute > opening + WINDOW;
    return over ? sumsOf(view, areasOf(view, editions)) : null;
}

function accept(account, entry, parts, sums) {
    const opening = parts[0].opening;
    if (account.opening !== opening) {
        const lost = account.opening !== null && sums === null; // a window that is over otherwise than is known here
        if (lost) throw new Disagreement(account.name, `window, ${placeOf(entry)}`);
        closeWindow(account, sums);
        account.opening = opening;
        account.paid.fill(0);
    }
    for (const { riders } of parts) for (const { slot, charge } of riders) account.paid[slot] += charge;
    entry.window = opening;
    entry.cents = centsOf(parts);
    entry.parts = parts;
    agree(account, entry);
}

const placeOf = ({ file, line }) => `${file}:${line}`;

/**
 * The window, its edition, the last check-out, and what every rider and bicycle has paid in it: the book has to say the
 * same.
 */
function agree({ name, view, paid, editions }, entry) {
    if (openingIn(view) !== entry.window) throw new Disagreement(name, `opening, ${placeOf(entry)}`);
    if (editionIn(view) !== entry.edition) throw new Disagreement(name, `edition, ${placeOf(entry)}`);
    if (lastCheckOutIn(view) !== entry.checkOut.minute) throw new Disagreement(name, `check-out, ${placeOf(entry)}`);
    const areas = areasOf(view, editions);
    for (let slot = 0; slot < paid.length; slot += 1) {
        const due = paidByBook(view, areas, slot);
        if (paid[slot] === due) continue;
        const { sort, number } = PARTY[slot];
        throw new Disagreement(name, `${sort} ${number}, ${placeOf(entry)}: ${paid[slot]} and ${due} cents`);
    }
}

/**
 * What a trip collects. The pair that the library keeps has to be the trip's month and what was collected in it, and
 * that has to be the smaller of the ceiling and the month's charges, as they are added up here.
 */
function collect({ name, month }, entry, due, kept) {
    if (month.name !== entry.month) Object.assign(month, { name: entry.month, charged: 0, collected: 0 });
    entry.collected = due;
    month.charged += entry.cents;
    month.collected += due;
    const most = Math.min(month.ceiling, month.charged);
    if (kept.month === month.name && kept.cents === month.collected && kept.cents === most) return;
    const sums = [month.collected, kept.cents, most].join(', ');
    throw new Disagreement(name, `collected in ${month.name} and ${kept.month}, ${placeOf(entry)}: ${sums} cents`);
}

// ---- Windows

/** A refused trip stands in the window that was open at its check-in; where none was, in a group without an opening. */
function putInWindow({ windows, clock }, entry) {
    const last = windows.at(-1);
    const opening = entry.accepted ? entry.window : openAt(last, entry.checkIn.minute);
    if (last && last.opening === opening) last.entries.push(entry);
    else windows.push(windowFrom(clock, opening, entry));
}

/** A window has the edition that its first trip opened it under; the group without an opening has none. */
function windowFrom(clock, opening, entry) {
    if (opening === null) return { opening, openingLocal: null, edition: null, entries: [entry], sums: [] };
    const openingLocal = momentIn(clock, opening);
    return { opening, openingLocal, edition: entry.edition, entries: [entry], sums: [] };
}

function openAt(window, minute) {
    return window && window.opening !== null && minute <= window.opening + WINDOW ? window.opening : null;
}

/** Keeps the sums that the book has when the window's last trip is in it. */
function closeWindow({ windows, opening }, sums) {
    const window = opening === null ? null : windows.findLast((one) => one.opening === opening);
    if (window) window.sums = sums;
}
