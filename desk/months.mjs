// Months, '2026-10': which there are, which are closed, and which one is open.
import { clockOf, dayOf, momentsOf } from './clock.mjs';

/** A month, '2026-10'. */
export const isPeriod = (text) => typeof text === 'string' && /^20\d\d-(0[1-9]|1[0-2])$/.test(text);

function shifted(month, by) {
    const [year, number] = month.split('-').map(Number);
    return new Date(Date.UTC(year, number - 1 + by, 1)).toISOString().slice(0, 7);
}

export const monthBefore = (month) => shifted(month, -1);
export const monthBehind = (month) => shifted(month, 1);

/** The minute at which a month begins, by the clock of a zone. */
export function startOf(zone, month) {
    return momentsOf(clockOf(zone), dayOf(`${month}-01`), 0)[0].minute;
}

/**
 * The months that have trips or books, in order: {month, trips, closed}. Closed is every month up to the last books,
 * `closings` being the months of all books: its trips are not priced again.
 */
export function monthsOf(trips, closings) {
    const last = lastOf(closings) ?? '';
    const counts = new Map(closings.map((month) => [month, 0]));
    for (const { month } of trips) if (month) counts.set(month, (counts.get(month) ?? 0) + 1);
    const months = [...counts].sort(([one], [other]) => (one < other ? -1 : 1));
    return months.map(([month, count]) => ({ month, trips: count, closed: month <= last }));
}

/** The first of some months; null of none. */
export function firstOf(months) {
    return months.reduce((first, month) => (first === null || month < first ? month : first), null);
}

/** The last of them. */
export function lastOf(months) {
    return months.reduce((last, month) => (last === null || month > last ? month : last), null);
}

/**
 * The month that is open: behind the last books the first that has trips, else the month right behind them. Where
 * nothing is closed yet, of the last two months the one with more trips, since a night reaches into the next; null
 * where there is none.
 */
export function openMonth(months) {
    const open = months.filter(({ closed }) => !closed);
    const closed = lastOf(months.filter((month) => month.closed).map(({ month }) => month));
    if (closed !== null) return open[0]?.month ?? monthBehind(closed);
    const [before, last] = open.slice(-2);
    return last && last.trips > before.trips ? last.month : (before?.month ?? null);
}
