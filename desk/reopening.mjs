// Closed books that are to be replaced: from the first that would be another now, each of their months is closed anew.
import { booksText, parsedBooks } from './books.mjs';
import { decoded } from './encoding.mjs';
import { runDesk } from './run.mjs';

/**
 * New books in the place of the closed ones from a result's `reopens` on, `files` as {name, bytes} in order. They are
 * what closing with today's trips writes. Where that changes more than the result's supplements say, `fault` names the
 * first book and member, and nothing is to be written. `options` are those of the result.
 */
export function reopenedBooks(options, { reopens, booksPeriod, closings, supplements }) {
    const isDue = (month) => reopens !== null && month >= reopens && month <= booksPeriod;
    const due = [...closings.keys()].filter(isDue);
    const books = new Map([...closings].filter(([month]) => month < reopens));
    const touched = new Set(supplements.map(({ member }) => member));
    for (const period of due.sort()) {
        const { name, bytes } = closings.get(period);
        const old = parsedBooks(decoded(bytes).text);
        const text = closedAnew(options, [...books.values()], period, old);
        const member = text === null ? supplements[0].member : otherMember(old, parsedBooks(text), touched);
        if (member !== null) return { files: [], fault: { name, member } };
        books.set(period, { name, bytes: new TextEncoder().encode(text) });
    }
    return { files: due.map((period) => books.get(period)), fault: null };
}

/**
 * The month's books as closing writes them, or null where it could not; it may have been closed under a new tariff, and
 * has the ceiling that it had.
 */
function closedAnew(options, books, period, { association, ceiling = null }) {
    const files = { ...options.files, books };
    const again = { correct: false, reopen: false, strict: false, newTariff: true, progress: undefined };
    const result = runDesk({ ...options, ...again, files, period, ceiling });
    return result.errors > 0 ? null : booksText({ ...result, association });
}

/** A member who has no supplement, and whose book or charges would yet be others; null where there is none. */
function otherMember(old, now, touched) {
    const chargeOf = ({ in: from, out, cents, refused }) => [from, out, cents, refused].join();
    const wordsOf = ({ books, trips }, name) => {
        return [...(trips.get(name) ?? []).map(chargeOf).sort(), String(books.get(name))].join('\n');
    };
    const same = (name) => wordsOf(old, name) === wordsOf(now, name);
    return [...old.books.keys()].find((name) => !touched.has(name) && !same(name)) ?? null;
}
