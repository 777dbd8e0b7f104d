// What the tests of corrections share: runs with a file of corrections, and their tables.
import { booksText } from '../books.mjs';
import { differencesText } from '../differences.mjs';
import { TRIPS, run } from './support.mjs';

export const file = (name, text) => ({ name, bytes: new TextEncoder().encode(text) });

/** A run that puts out what corrections change. */
export const corrected = (trips, corrections, options = {}) => run(trips, { corrections, correct: true, ...options });

/** Rows of cells as lines of a file. */
export const rowsText = (rows) => rows.map((cells) => `${cells.join(',')}\n`).join('');

/** The corrections that make other rides of some, null of one that is cancelled; the first stands in line 2. */
export function changesOf(rides, after) {
    const changed = after.flatMap((ride, i) => (ride === rides[i] ? [] : [[i + 2, ride]]));
    const lines = changed.map(([line, ride]) => [line, ...(ride === null ? ['yes'] : ['', ...ride])]);
    return `line,cancel,${TRIPS}${rowsText(lines)}`;
}

/** The table of differences, without its header. */
export const table = (result) => differencesText(result, 'csv', 'en').trimEnd().split('\n').slice(1);

/** The books of a month, as a file. */
export function closedBooks(trips, period, options = {}) {
    const { errors, ...result } = run(TRIPS + trips, { period, ...options });
    if (errors > 0) throw new Error(result.mistakes[0].text);
    return file(`books-${period}.json`, booksText(result));
}
