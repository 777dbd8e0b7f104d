// Closed months: which books there are, from which of them the trips go on, whether those fit the tariff, and what
// speaks against closing a month now.
import { bookEdition, openUntil } from './account.mjs';
import { closedIn, isUnderCeiling, readBooks } from './books.mjs';
import { freshKept } from './ceiling.mjs';
import { WINDOW } from './editions.mjs';
import { BOOK_BYTES } from './engine.mjs';
import { mistakeText } from './mistakes.mjs';
import { firstOf, lastOf, monthBefore, monthBehind, startOf } from './months.mjs';
import { structureOf } from './tariff.mjs';

/** The books that are given, month → file. A file that closes none, and two that close one, are mistakes. */
export function closingsIn({ files, mistakes }) {
    const closings = new Map();
    for (const file of files.books) {
        const period = closedIn(file) ?? readBooks(file, mistakes)?.period;
        const other = closings.get(period);
        if (other) mistakes.error(file.name, 1, 'booksTwice', { period, name: file.name, other: other.name });
        else if (period) closings.set(period, file);
    }
    return closings;
}

/**
 * The books that the trips go on from, with their file: of several those of the last closing before the period; one
 * that was named by itself is meant, whatever it says. Null where there are none, or a mistake in them.
 */
export function booksIn(desk, tariff, closings) {
    const { period, named, mistakes } = desk;
    const due = [...closings.keys()].filter((month) => named || period === null || month < period);
    const file = closings.get(lastOf(due));
    const books = file ? readBooks(file, mistakes) : null;
    if (books === null) return null;
    if (closings.get(books.period) !== file) return mistakes.error(file.name, 1, 'booksBroken'); // says two months
    if (period !== null && books.period >= period) {
        mistakes.error(file.name, 1, 'booksClosed', { closed: books.period, period });
    }
    for (const month of due) fitMonths(desk, closings.get(month), closings.get(month) === file ? books : null);
    if (tariff.hash) fitEditions(desk, tariff.editions, books, file);
    return { ...books, file };
}

/** What books have of a member: the book, and what is kept of the month under a ceiling; of none, fresh ones. */
export function accountIn(books, name) {
    const book = books?.books.get(name) ?? new Uint8Array(BOOK_BYTES);
    return { book, kept: books?.collected?.get(name) ?? freshKept() };
}

// ---- Books and months

/** Months are all counted alike, by UTC or by the clock on the wall: else a trip could fall between two of them. */
function fitMonths({ ceiling, mistakes }, file, books) {
    const under = books === null ? isUnderCeiling(file) : books.ceiling !== undefined;
    if (under !== (ceiling !== null)) mistakes.error(file.name, 1, 'booksMonths', { under });
}

// ---- Books and tariff

/**
 * Each edition that the books know has to be there as it was. One that was added since leaves them as good as they
 * were, and is told where trips that are closed would have been its own.
 */
function fitEditions(desk, editions, books, { name }) {
    const { newTariff, mistakes } = desk;
    const known = books.editions.length;
    if (known > editions.length) return mistakes.error(name, 1, 'booksEdition', { from: books.editions.at(-1).from });
    const end = startOf(desk.monthZone, monthBehind(books.period));
    const late = editions.slice(known).find(({ since }) => since < end);
    if (late) mistakes.warning(name, 1, 'editionLate', { from: late.from, closed: books.period });
    const changed = editions.filter((edition, i) => i < known && !isSame(mistakes, edition, books.editions[i], name));
    if (changed.length === 0) return null;
    const isOpen = (book) => openUntil(book) > end && changed.some(({ number }) => number === bookEdition(book));
    const open = [...books.books].filter(([, book]) => isOpen(book)).map(([member]) => member);
    if (newTariff) return mistakes.note('warning', name, 1, 'newTariff', { open }); // no error if strict: it is meant
    const moved = changed.some(({ number, from }) => books.editions[number - 1].from !== from);
    return mistakes.error(name, 1, 'booksPrices', { open, moved });
}

/**
 * Whether an edition has the prices, caps and day that the books know, or is none that they can go on under, which is a
 * mistake: a book knows areas by their numbers, and under areas that mean something else it is useless. Of the oldest
 * form only the hash of the whole tariff is known.
 */
function isSame(mistakes, edition, { from, tariff, structure, values, areas }, name) {
    if (structure === undefined) {
        if (tariff !== edition.hash) mistakes.error(name, 1, 'booksOldTariff', { found: tariff, due: edition.hash });
        return true;
    }
    if (structureOf(edition.areas.slice(0, areas)) !== structure) {
        mistakes.error(name, 1, 'booksTariff', { areas: edition.files.areas });
        return true;
    }
    return values === edition.values && from === edition.from;
}

/** Whether areas mean what they meant when books were kept, also older ones than those that the trips go on from. */
export function fitsAreas(editions, books) {
    return books.editions.every(({ tariff, structure, areas }, i) => {
        if (structure === undefined || !editions[i]) return tariff === editions[i]?.hash;
        return structureOf(editions[i].areas.slice(0, areas)) === structure;
    });
}

// ---- Trips

/** Those trips that are neither in the books already nor behind the period. */
export function dueTrips({ period }, books, trips) {
    const closed = books?.period ?? '';
    return trips.filter(({ month }) => month > closed && (period === null || month <= period));
}

// ---- What came before

/**
 * Where nothing is known of the month before, neither trips nor books, a window that was opened there is begun anew by
 * the first trips of the month. Told once, with those whom it may concern and what these trips cost.
 */
export function warnOfLostWindows({ period, months, monthZone, mistakes }, members) {
    const first = period ?? firstOf(members.flatMap(({ entries }) => entries.map(({ month }) => month)));
    if (first === null || months.some(({ month }) => month === monthBefore(first))) return;
    const end = startOf(monthZone, first) + WINDOW; // no window from before is open then
    const isEarly = (entry) => entry.accepted && entry.month === first && entry.checkOut.minute < end;
    const early = members.flatMap(({ entries }) => entries.filter(isEarly));
    if (early.length === 0) return;
    const names = [...new Set(early.map(({ member }) => member))];
    const cents = early.reduce((sum, entry) => sum + entry.cents, 0);
    const { file, line } = early[0];
    mistakes.warning(file, line, 'lostWindows', { names, month: first, before: monthBefore(first), cents });
}

// ---- Whether to close

/**
 * What is to be said before a month is closed, as {kind, key, values, text}: an 'error' where it is likely not meant,
 * so that it is done only if asked for once more (--force), or never where it is closed already ('closeTwice'); and a
 * 'warning'. `today` is a date, or null: not known. `unpaid` are closed months that have a supplement.
 */
export function closingDoubts({ period, today, months, closings, unpaid, language }) {
    if (period === null) return [];
    const present = today?.slice(0, 7) ?? null;
    const later = [...closings.keys()].filter((month) => month > period);
    const open = openBefore(period, months, [...closings.keys()]);
    const doubts = [
        ...(closings.has(period) ? [['error', 'closeTwice', { period, file: closings.get(period).name }]] : []),
        ...(present !== null && period > present ? [['error', 'closeFuture', { period, today }]] : []),
        ...(open.length > 0 ? [['error', 'closeGap', { period, months: open }]] : []),
        ...(later.length > 0 ? [['error', 'closeEarlier', { later: lastOf(later) }]] : []),
        ...(unpaid.length > 0 ? [['error', 'closeSupplement', { months: unpaid }]] : []),
        ...(period === present ? [['warning', 'closeRunning', { period, today }]] : []),
    ];
    return doubts.map(([kind, key, values]) => ({ kind, key, values, text: mistakeText({ key, values }, language) }));
}

/** The months that closing a period would leave unclosed: behind the last books every one, else those with trips. */
function openBefore(period, months, closings) {
    const last = lastOf(closings.filter((month) => month <= period));
    if (last === null) return months.filter(({ month }) => month < period);
    const open = [];
    for (let month = monthBehind(last); month < period; month = monthBehind(month)) open.push(month);
    return open.map((month) => months.find((known) => known.month === month) ?? { month, trips: 0 });
}
