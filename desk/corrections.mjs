// Corrections from corrections.csv: each is of a line of the trips, and says what stands there instead, or that the
// trip is cancelled. The files of trips stay as they are.
import { readTable } from './csv.mjs';
import { wholeIn, wordIn } from './fields.mjs';
import { nearest, tidy } from './names.mjs';
import { TRIP_COLUMNS } from './trips.mjs';

const OF_TRIPS = Object.keys(TRIP_COLUMNS);

/** The columns of corrections.csv, and whether each has to be there; of those of trips an empty one is as it was. */
export const CORRECTION_COLUMNS = {
    ...{ file: false, line: true, cancel: false },
    ...Object.fromEntries(OF_TRIPS.map((column) => [column, false])),
};

const LAST_LINE = 999999999;

// ---- Reading

/**
 * What the file says, for whoever reads the trips: `read(trips, row, read, tell)` reads a row of one of their files
 * with its correction, and `end(trips)` tells of those whose line has no trip, once that file is read.
 * `at(trips, line)` is the line of the correction, or undefined. Null where there is no such file, or none that can be
 * read.
 */
export function readCorrections(file, tripFiles, mistakes) {
    const numbered = (row, own) => ({ ...row, own }); // the row's own line: a column has that name here
    const rows = file.bytes === null ? null : readTable(file, CORRECTION_COLUMNS, mistakes, numbered);
    if (rows === null) return null;
    const names = tripFiles.map(({ name }) => name);
    const byFile = new Map(names.map((name) => [name, new Map()]));
    for (const row of rows) {
        const note = (key, values) => mistakes.error(file.name, row.own, key, values);
        const [trips, line] = [fileIn(row, names, note), wholeIn(row, 'line', 2, LAST_LINE, note)];
        const correction = correctionIn(row, note);
        if (trips !== null && line !== null) keep(byFile.get(trips), { ...correction, trips, line });
    }
    const at = (trips, line) => byFile.get(trips)?.get(line);
    return {
        name: file.name,
        at: (trips, line) => at(trips, line)?.own,
        read: (trips, row, read, tell) => readCorrected(at(trips, row.line), row, read, tell),
        end: (trips) => tellUnfound(byFile.get(trips)),
    };
}

/** The file of trips that a row is of: where there is only one, it need not be named. */
function fileIn(row, names, note) {
    const value = tidy(row.file);
    if (value === '') return names.length === 1 ? names[0] : note('tripFileDue', { files: names });
    return names.find((name) => tidy(name) === value) ?? note('noTripFile', { value, near: nearest(value, names) });
}

/** What a row says of its trip: `values` are those columns that change; `found` is whether there is such a trip. */
function correctionIn(row, note) {
    const columns = OF_TRIPS.filter((column) => row[column] !== '');
    const word = wordIn(row, 'cancel', ['yes', 'no', 'ja', 'nein'], note, 'no');
    const cancel = word === 'yes' || word === 'ja';
    if (cancel && columns.length > 0) note('cancelAlone', { columns });
    if (word !== null && !cancel && columns.length === 0) note('correctsNothing');
    const values = Object.fromEntries(columns.map((column) => [column, row[column]]));
    return { own: row.own, cancel, values, note, found: false };
}

function keep(lines, correction) {
    const { trips, line, note } = correction;
    const other = lines.get(line);
    if (other) note('correctedTwice', { trips, line, other: other.own });
    else lines.set(line, correction);
}

function tellUnfound(lines) {
    for (const { trips, line, note, found } of lines.values()) if (!found) note('noTripLine', { trips, line });
}

// ---- Applying

/**
 * A row's trip as it was, with what its correction, if there is one, makes of it. `read(row, tell)` reads a trip; what
 * is amiss with the corrected row alone is told beside the correction.
 */
function readCorrected(correction, row, read, tell) {
    if (correction === undefined) return read(row, tell);
    const { cancel, values, note } = correction;
    const told = new Set();
    const textOf = (...mistake) => JSON.stringify(mistake);
    const trip = read(row, (...mistake) => {
        told.add(textOf(...mistake));
        return tell(...mistake);
    });
    const other = (...mistake) => (told.has(textOf(...mistake)) ? null : note(...mistake));
    const corrected = cancel ? null : read({ ...row, ...values }, other);
    correction.found = true;
    if (trip !== null) trip.corrected = corrected;
    if (corrected !== null) corrected.original = trip;
    return trip;
}

/** The trips as they are corrected. */
export function correctedTrips(trips) {
    if (trips.every(({ corrected }) => corrected === undefined)) return trips;
    return trips.map((trip) => (trip.corrected === undefined ? trip : trip.corrected)).filter((trip) => trip !== null);
}

/** How many trips are corrected, and those that are cancelled: {name, corrected, cancelled}; null where none is. */
export function correctionsIn(corrections, trips) {
    const own = trips.filter(({ corrected }) => corrected !== undefined);
    if (own.length === 0) return null;
    const cancelled = own.filter(({ corrected }) => corrected === null);
    return { name: corrections.name, corrected: own.length - cancelled.length, cancelled };
}
