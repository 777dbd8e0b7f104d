// The books file: the members' books at the end of a period, what in each edition of the tariff they depend on, and the
// trips that they are of. Closing writes it, once a period; everything else reads it. A book's words that are 0 are
// left out.
import { CEILING_ZONE, isCeiling, isKeptBy, keptBytes, keptOf } from './ceiling.mjs';
import { FIRST_DAY, isLaterDay } from './editions.mjs';
import { textIn } from './encoding.mjs';
import { BOOK_BYTES } from './engine.mjs';
import { areKept, keptLines, stopWords } from './kept.mjs';
import { isPeriod } from './months.mjs';
import { structureOf } from './tariff.mjs';

const CEILING = 'milecopper books 4'; // under a monthly ceiling: months are UTC's, and what is collected is kept
const MARK = 'milecopper books 3'; // without one: months are those of the clock on the wall
const ONE_EDITION = 'milecopper books 2'; // knows one edition, and its books have no word for it
const NO_TRIPS = 'milecopper books 1'; // neither; and of the tariff the hash alone, and no trips
const FORMS = [CEILING, MARK, ONE_EDITION, NO_TRIPS];
const OLDER = [ONE_EDITION, NO_TRIPS]; // their books have no word for the edition
const WORDS = BOOK_BYTES / 4;
const EDITION_WORD = WORDS - 1; // the last: the number of the window's edition

// ---- Reading

/**
 * What a file says: {period, books: member → book, editions}, where `editions` has of each that there was {tariff}, the
 * hash of its tariff. Forms from the second on say besides of each `from`, its day; `areas`, how many there were;
 * `structure` and `values`, the hashes of what they mean and of what stands in them; and `stopIds`, the ids of the
 * words of its stops. Of the whole they say `before`, the month of the books that these went on from, or null; `trips`,
 * member → all trips that were settled from there on (`keptLines`); `association`, {name, contact} of whoever closed
 * the month, or null. Of the oldest form these are undefined. Of books that were kept under a monthly ceiling there are
 * besides `ceiling` and `collected`, member → what is kept of the month. Null, and a mistake, for any other file.
 */
export function readBooks(file, mistakes) {
    const text = textIn(file, mistakes);
    return text === null ? null : (parsedBooks(text) ?? mistakes.error(file.name, 1, 'booksBroken'));
}

/** What the text says; null where it is not of books. */
export function parsedBooks(text) {
    try {
        const said = JSON.parse(text);
        const { form, period, members } = said;
        const books = new Map(members.map(({ member, words }) => [member, bookOf(words, form)]));
        const editions = editionsIn(said);
        const whole = FORMS.includes(form) && isPeriod(period) && books.size === members.length && editions !== null;
        const right = [...books].every(([member, book]) => typeof member === 'string' && book !== null);
        if (!whole || !right) return null;
        if (form === NO_TRIPS) return { period, books, editions };
        const more = keptIn(said, editions);
        const under = form === CEILING ? underCeiling(said) : {};
        return more && under && { period, books, editions, ...more, ...under };
    } catch {
        return null;
    }
}

/** The editions that the file says it knows, one or two; null where they are not such. */
function editionsIn({ form, tariff, areas, structure, values, stops, editions }) {
    if (form === NO_TRIPS) return isHash(tariff) ? [{ tariff }] : null;
    const only = { from: FIRST_DAY, tariff, areas, structure, values, stops };
    const known = form === ONE_EDITION ? [only] : editions;
    const right = ({ from, tariff: whole, areas: count, structure: meaning, values: prices, stops: ids }, i) => {
        const day = i === 0 ? from === FIRST_DAY : isLaterDay(from);
        const hashes = [whole, meaning, prices].every(isHash);
        return day && hashes && Number.isInteger(count) && count > 0 && ids !== null && typeof ids === 'object';
    };
    if (known.length < 1 || known.length > 2 || !known.every(right)) return null;
    return known.map(({ stops: stopIds, ...edition }) => ({ ...edition, stopIds }));
}

function keptIn({ before, members, period, association }, editions) {
    const inOrder = before === null || (isPeriod(before) && before < period);
    const whole = members.every(({ trips }) => areKept(trips, editions));
    const trips = new Map(members.map(({ member, trips: own }) => [member, own]));
    return inOrder && whole ? { before, trips, association: senderIn(association) } : null;
}

/** The ceiling, and what is kept of each member's month under it; null where that cannot be. */
function underCeiling({ ceiling, months, members, period }) {
    const whole = members.every(({ collected }) => isKeptBy(period, collected));
    const collected = () => new Map(members.map(({ member, collected: own }) => [member, keptBytes(own)]));
    return whole && isCeiling(ceiling) && months === CEILING_ZONE ? { ceiling, collected: collected() } : null;
}

/** Who the statements are from, where the file says so. */
function senderIn(association) {
    const { name, contact } = association ?? {};
    return typeof name === 'string' && typeof contact === 'string' ? { name, contact } : null;
}

const isHash = (text) => typeof text === 'string' && /^[0-9a-f]{64}$/.test(text);

const beginningOf = ({ bytes }) => new TextDecoder('utf-8').decode(bytes.subarray(0, 4000));

/** The month that a file says near its start that it closes; null where it says none. */
export function closedIn(file) {
    const found = /"period":\s*"([^"]*)"/.exec(beginningOf(file))?.[1];
    return isPeriod(found) ? found : null;
}

/** Whether a file says near its start that it was kept under a monthly ceiling. */
export function isUnderCeiling(file) {
    return new RegExp(`"form":\\s*"${CEILING}"`).test(beginningOf(file));
}

/** A book from its words. Those of older forms have none for the edition: in a window there was only one, the first. */
function bookOf(words, form) {
    const book = new Uint8Array(BOOK_BYTES);
    const view = new DataView(book.buffer);
    const older = OLDER.includes(form);
    const end = older ? EDITION_WORD : WORDS;
    let last = -1;
    for (const [at, value] of words) {
        const inside = Number.isInteger(at) && at > last && at < end;
        if (!inside || !Number.isInteger(value) || value < 0 || value >= 2 ** 32) return null;
        view.setUint32(4 * at, value, true);
        last = at;
    }
    if (older && view.getUint32(0, true) !== 0) view.setUint32(4 * EDITION_WORD, 1, true);
    return book;
}

// ---- Writing

function wordsIn(book) {
    const view = new DataView(book.buffer, book.byteOffset, book.length);
    const words = Array.from({ length: WORDS }, (_, at) => [at, view.getUint32(4 * at, true)]);
    return words.filter(([, value]) => value !== 0);
}

/** The file's text at the end of the result's period: a member a line, and behind it the trips, a line each. */
export function booksText({ tariff: { editions }, period, booksPeriod, books, members, association, ...result }) {
    const { ceiling = null, collected, monthZone } = result;
    const keptFor = (member) => (ceiling === null ? {} : { collected: keptOf(collected.get(member)) });
    const words = editions.map(({ stops }) => stopWords(stops));
    const entries = new Map(members.map((member) => [member.name, member.entries]));
    const lines = [...books].map(([member, book]) => {
        const head = JSON.stringify({ member, ...keptFor(member), words: wordsIn(book) }).slice(0, -1);
        return `${head},"trips":[${keptLines(entries.get(member) ?? [], words).map((trip) => `\n${trip}`).join(',')}]}`;
    });
    const known = editions.map((edition, i) => JSON.stringify(editionHead(edition, words[i])));
    const sender = association && (association.name || association.contact) ? { association } : {};
    const form = ceiling === null ? { form: MARK } : { form: CEILING, months: monthZone, ceiling };
    const said = Object.entries({ ...form, period, before: booksPeriod, ...sender });
    const top = said.map(([key, value]) => `"${key}": ${JSON.stringify(value)}`).join(',\n ');
    const list = (name, own) => ` "${name}": [\n${own.join(',\n')}\n]`;
    return `{${top},\n${list('editions', known)},\n${list('members', lines)}}\n`;
}

/** What books keep of an edition, by which they know it again. */
function editionHead({ from, hash, areas, values, stops }, words) {
    const ids = Object.fromEntries(stops.map(({ id }, stop) => [words[stop], id]));
    return { from, tariff: hash, areas: areas.length, structure: structureOf(areas), values, stops: ids };
}

/** The name of a period's file. */
export function booksName(period) {
    return `books-${period}.json`;
}
