// Trips of closed months that are not as the books have them: those that turned up late, and those that are corrected.
import { parsedBooks } from './books.mjs';
import { decoded } from './encoding.mjs';
import { besideKept } from './kept.mjs';

/**
 * The spans that were closed at once, one for each of the books up to those that the trips go on from, in order. Each
 * has what its books say, their file, and of today's trips `own`, as they are corrected, and `was`, as they were read;
 * `unknown` and `unkept` are the same of a month whose trips no books keep, of the latter only those that are
 * corrected. Only spans from the first trip on are there.
 */
export function closedSpans(books, closings, read, trips) {
    const closed = (list) => list.filter(({ month }) => month <= books.period);
    const [own, was] = [closed(trips), closed(read)];
    const first = [...own, ...was].reduce((least, { month }) => (month < least ? month : least), '9');
    const due = [...closings.keys()].filter((closing) => first <= closing && closing <= books.period).sort();
    const spans = due.map((closing) => spanOf(closings.get(closing), books));
    const at = (month) => spans[due.findIndex((closing) => closing >= month)];
    for (const trip of own) (keeps(at(trip.month), trip) ? at(trip.month).own : at(trip.month).unknown).push(trip);
    for (const trip of was) (keeps(at(trip.month), trip) ? at(trip.month).was : at(trip.month).unkept).push(trip);
    return spans.map((span) => ({ ...span, unkept: span.unkept.filter(({ corrected }) => corrected !== undefined) }));
}

function spanOf(file, books) {
    const said = file === books.file ? books : parsedBooks(decoded(file.bytes).text ?? '');
    return { ...said, file, own: [], was: [], unknown: [], unkept: [] };
}

const keeps = ({ trips, before }, { month }) => trips !== undefined && (before === null || before < month);

/**
 * What of a span is not as its books have it: `late`, the set of trips that they lack; what they have and no file of
 * today has, `missing`; and `places`, the trips to be named: late ones, and those that they have and that are corrected
 * since, unless one is the same member's late trip by now. `same` is all that they have.
 */
export function changesIn(span, editions) {
    if (span.own.length + span.was.length === 0) return { late: new Set(), same: [], places: [], missing: span.trips };
    const { known, late: lacking, gone } = besideKept(span.own, span, editions);
    const corrected = span.was.filter((trip) => trip.corrected !== undefined);
    const { known: undone, gone: missing } = besideKept(corrected, { ...span, trips: gone }, editions);
    const late = new Set(lacking);
    const isNamed = (trip) => late.has(trip.corrected) && trip.corrected.member === trip.member;
    const places = [...lacking, ...undone.filter((trip) => !isNamed(trip))];
    return { late, same: [...known, ...undone], places, missing };
}

/** Names each trip that the books do not have so; of books that keep no trips it tells how many there are. */
export function tellClosed({ mistakes }, spans, editions, closed) {
    for (const span of spans.filter(({ trips }) => trips !== undefined)) {
        for (const { file, line, member, month } of changesIn(span, editions).places) {
            mistakes.warning(file, line, 'lateTrip', { member, month, books: span.file.name });
        }
    }
    tellUnknown(mistakes, spans, closed);
}

export function tellUnknown(mistakes, spans, closed) {
    const unknown = spans.flatMap((span) => span.unknown);
    if (unknown.length === 0) return;
    const { file, line } = unknown[0];
    mistakes.warning(file, line, 'inBooks', { count: unknown.length, closed });
}
