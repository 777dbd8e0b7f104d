// A monthly ceiling: how it is written, and what is kept of a month under it, as the library has it (docs/FORMAT.md).
import { KEPT_BYTES } from './engine.mjs';
import { amountOf, euros } from './fields.mjs';
import { isPeriod } from './months.mjs';

const MOST = 1000000; // cents, of a ceiling and of what is collected in a month

/** The zone whose months the ceiling's are. */
export const CEILING_ZONE = 'UTC';

/** The zone whose months count: with a ceiling that of its own, else that of the clock on the wall. */
export const monthZoneOf = (ceiling, zone = 'Europe/Berlin') => (ceiling === null ? zone : CEILING_ZONE);

export const isCeiling = (cents) => Number.isInteger(cents) && cents >= 0 && cents <= MOST;

/** A ceiling that is written in euros, '150,00', as cents; null where it is none. */
export function ceilingOf(text) {
    const cents = amountOf(text.trim());
    return isCeiling(cents) ? cents : null;
}

/** What is amiss with a text that is no ceiling, as a mistake of whoever asked for it. */
export const noCeiling = (column, value) => ({ key: 'notAmount', values: { column, value, most: euros(MOST) } });

// ---- What is kept: the month of the last trip, '2026-10', and the cents collected in it

const JANUARY_2000 = 24000; // in months

/** Of nobody's trip yet. */
export const freshKept = () => new Uint8Array(KEPT_BYTES);

export function keptOf(bytes) {
    const view = new DataView(bytes.buffer, bytes.byteOffset, bytes.length);
    const number = JANUARY_2000 + view.getUint32(0, true);
    const month = `${Math.floor(number / 12)}-${String((number % 12) + 1).padStart(2, '0')}`;
    return { month, cents: view.getUint32(4, true) };
}

export function keptBytes({ month, cents }) {
    const bytes = freshKept();
    const [year, number] = month.split('-').map(Number);
    const view = new DataView(bytes.buffer);
    view.setUint32(0, 12 * year + number - 1 - JANUARY_2000, true);
    view.setUint32(4, cents, true);
    return bytes;
}

/** Whether books that close a period can have kept this. */
export function isKeptBy(period, { month, cents }) {
    return isPeriod(month) && month <= period && isCeiling(cents);
}
