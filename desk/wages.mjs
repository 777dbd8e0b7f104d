// The two tables: wages, a row for each member and month, for the wage office; charges, a row for each charge.
import { writtenCsv } from './csv.mjs';
import { Disagreement, centsOf } from './account.mjs';
import { isoOf } from './trips.mjs';

/**
 * Rows {member, period, trips, refused, cents} of the entries in the period: trips are those accepted. Where there is a
 * roster, each has the member's `number`, too. Under a ceiling `cents` is what is collected, and `charged` the charges.
 */
export function wagesOf(members, roster, ceiling = null) {
    const charged = ceiling === null ? {} : { charged: 0 };
    return members.flatMap((member) => {
        const number = roster ? { number: roster.get(member.name).number } : {};
        const rows = new Map();
        const emptyRow = (period) => {
            return { member: member.name, period, trips: 0, refused: 0, cents: 0, ...number, ...charged };
        };
        for (const entry of member.entries.filter(({ inPeriod }) => inPeriod)) {
            if (!rows.has(entry.month)) rows.set(entry.month, emptyRow(entry.month));
            const row = rows.get(entry.month);
            if (!entry.accepted) row.refused += 1;
            else [row.trips, row.cents] = [row.trips + 1, row.cents + paidOf(entry)];
            if (entry.accepted && ceiling !== null) row.charged += entry.cents;
        }
        return [...rows.values()];
    });
}

/** What an accepted trip costs the member: under a ceiling what is collected, else its charges. */
export const paidOf = ({ cents, collected = cents }) => collected;

/** The charges of a row; without a ceiling they are what is paid. */
export const chargedOf = ({ cents, charged = cents }) => charged;

const TRIP = ['member', 'line', 'check_in', 'check_out', 'from', 'to', 'via', 'class', 'level'];
const RIDE = ['part', 'area', 'km', 'minutes', 'window'];
const RIDER = ['rider', 'price', 'charge', 'taken_off', 'cap_area', 'cap_class'];

const CHARGES = [...TRIP, ...RIDE, ...RIDER, 'refusal'];

/**
 * The columns of a result's charges: where there are several files of trips, the first says which a trip is from;
 * under a ceiling one has in a trip's first row what it collects; and where there are corrections, the last says which
 * trips are corrected.
 */
function chargeColumns({ tripFiles, ceiling = null, corrections = null }) {
    const [first, last] = [tripFiles.length > 1 ? ['file'] : [], corrections ? ['corrected'] : []];
    return [...first, ...CHARGES, ...(ceiling === null ? [] : ['collected']), ...last];
}

/** Rows by column of the entries in the period: one for each charge, and one for each refused trip. */
export function chargesOf(result) {
    const columns = chargeColumns(result);
    return Array.from(chargeRows(result), (row) => rowByColumn(columns, row));
}

const rowByColumn = (columns, row) => Object.fromEntries(columns.map((column, i) => [column, row[i]]));

/** The same rows one after another, as values in the columns' order. */
function* chargeRows({ members, tariff, tripFiles, ceiling = null, corrections = null }) {
    const fileOf = (entry) => (tripFiles.length > 1 ? [entry.file] : []);
    for (const { entries, openingLocal } of members.flatMap(({ windows }) => windows)) {
        for (const entry of entries.filter(({ inPeriod }) => inPeriod)) {
            const rows = entryRows(fileOf(entry), entry, openingLocal, tariff.editions[entry.edition - 1]);
            const paid = ceiling === null ? rows : collectedRows(entry, rows);
            yield* corrections ? correctedRows(entry, paid) : paid;
        }
    }
}

/** The rows with a word behind each where the trip is corrected. */
function* correctedRows({ original }, rows) {
    for (const row of rows) yield [...row, original ? 'yes' : null];
}

/** The rows with what the trip collects behind the first; of a refused one that is nothing, and not 0. */
function* collectedRows({ collected = null }, rows) {
    let first = true;
    for (const row of rows) {
        yield [...row, first ? collected : null];
        first = false;
    }
}

function* entryRows(file, entry, opening, { areas, stops }) {
    const via = entry.via.map((stop) => stops[stop].name).join('|');
    const times = [isoOf(entry.checkIn), isoOf(entry.checkOut)];
    const places = [stops[entry.from].name, stops[entry.to].name, via];
    const trip = [...file, entry.member, entry.line, ...times, ...places, entry.class, entry.level];
    if (!entry.accepted) yield [...trip, ...[...RIDE, ...RIDER].map(() => null), entry.refusal.number];
    let number = 0;
    for (const part of entry.parts ?? []) {
        number += 1;
        const ride = [number, areas[part.area].name, part.km, part.minutes, isoOf(opening)];
        for (const rider of part.riders) yield [...trip, ...ride, ...riderValues(rider, areas), null];
    }
}

/** How tables name one of a party: 'holder', 'adult 2'. */
export const riderName = ({ sort, number }) => (sort === 'holder' ? sort : `${sort} ${number}`);

function riderValues({ sort, number, price, charge, off, cap }, areas) {
    const rider = riderName({ sort, number });
    return [rider, price, charge, off, cap ? areas[cap.area].name : null, cap ? cap.class : null];
}

/**
 * Wages come from the trips' sums, and the single charges add up to them, of every member. Under a ceiling each month's
 * amount is the smaller of the ceiling and the charges.
 */
export function agreeWages(wages, members, ceiling = null) {
    const due = new Map(members.map(({ name }) => [name, 0]));
    for (const row of wages) {
        due.set(row.member, due.get(row.member) + chargedOf(row));
        const most = Math.min(ceiling ?? Infinity, chargedOf(row));
        if (row.cents === most) continue;
        throw new Disagreement(row.member, `wages of ${row.period}: ${row.cents} and ${most} cents`);
    }
    for (const { name, windows } of members) {
        const charged = windows.reduce((sum, { entries }) => sum + chargedIn(entries), 0);
        const paid = due.get(name);
        if (charged !== paid) throw new Disagreement(name, `wages ${paid} and charges ${charged} cents`);
    }
}

function chargedIn(entries) {
    const counted = entries.filter(({ inPeriod, accepted }) => inPeriod && accepted);
    return counted.reduce((sum, { parts }) => sum + centsOf(parts), 0);
}

// ---- As text

const WAGES = ['member', 'period', 'trips', 'refused', 'cents'];
const TITLES = { cents: 'amount' };
const DIFFERENCES = ['before', 'after', 'difference'];
const AMOUNTS = new Set(['cents', 'charged', 'price', 'charge', 'taken_off', 'collected', ...DIFFERENCES]);

/**
 * The wages as CSV, with amounts in euros, or as JSON, with amounts in cents. Under a ceiling the months are those of
 * UTC, and their column says so. Supplements are rows of their own, and the last column then says which.
 */
export function wagesText({ wages, roster, ceiling = null, supplements = [] }, format, language) {
    const charged = ceiling === null ? [] : ['charged'];
    const supplement = supplements.length > 0 ? ['supplement'] : [];
    const columns = [...WAGES, ...(roster ? ['number'] : []), ...charged, ...supplement];
    const names = columns.map((column) => (column === 'period' && ceiling !== null ? 'period_utc' : column));
    const rows = [...wages, ...supplements].map((row) => columns.map((column) => row[column] ?? null));
    return tableText(names, rows, format, language);
}

/** The charges likewise. */
export function chargesText(result, format, language) {
    return tableText(chargeColumns(result), chargeRows(result), format, language);
}

/** A table as CSV or JSON, its rows as values in the columns' order. */
export function tableText(columns, rows, format, language) {
    return format === 'json' ? jsonOf(columns, rows) : writtenCsv(csvRows(columns, rows), language);
}

function jsonOf(columns, rows) {
    return `[\n${Array.from(rows, (row) => JSON.stringify(rowByColumn(columns, row))).join(',\n')}\n]\n`;
}

function* csvRows(columns, rows) {
    const isAmount = columns.map((column) => AMOUNTS.has(column));
    yield columns.map((column) => TITLES[column] ?? column);
    for (const row of rows) yield row.map((value, i) => (isAmount[i] && value !== null ? { cents: value } : value));
}
