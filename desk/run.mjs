// The desk's work in one function, which page and command both call: files in, everything out.
import { Disagreement, lastCheckOut, settleMember } from './account.mjs';
import { capsOf } from './caps.mjs';
import { isCeiling, monthZoneOf } from './ceiling.mjs';
import { clockOf } from './clock.mjs';
import { accountIn, booksIn, closingDoubts, closingsIn, dueTrips, warnOfLostWindows } from './closings.mjs';
import { correctedTrips, correctionsIn, readCorrections } from './corrections.mjs';
import { differencesOf } from './differences.mjs';
import { placeOf, warnOfNearBooks, warnOfNearMembers, warnOfSlips } from './doubts.mjs';
import { dayInName, editionFiles } from './editions.mjs';
import { closedSpans, tellClosed } from './late.mjs';
import { checkMembers, readMembers } from './members.mjs';
import { Mistakes } from './mistakes.mjs';
import { isPeriod, monthsOf, openMonth } from './months.mjs';
import { NO_SUPPLEMENTS, supplementsOf } from './supplements.mjs';
import { readTariff, recordAt } from './tariff.mjs';
import { momentIn, readTrips, tripsByMember } from './trips.mjs';
import { agreeWages, chargesOf, wagesOf } from './wages.mjs';
import { reasonText } from './words.mjs';

const NAMES = {
    ...{ areas: 'areas.csv', stops: 'stops.csv', trips: 'trips.csv' },
    ...{ members: 'members.csv', corrections: 'corrections.csv' },
};

/**
 * Reads the files, each as bytes, as text or as {name, bytes}, and of trips, areas and stops one or several in a list,
 * of areas and stops those of the second edition by the day in their names; settles every member's trips; makes the
 * tables. All mistakes of all files are told at once, and with an error among them there are no members and no tables.
 *
 * `period`, '2026-10': what counts. Trips before it are settled too, since a window may reach over the month's end;
 * what comes after it is not looked at. Null: all trips count. 'open': the month that is open, which the result names.
 * `files.books`: one file, from which the trips go on, or an array of files, of which it is the last one before the
 * period; the others say which trips of their months are known. `newTariff`: books that were kept under other prices
 * are meant. `today`, '2026-11-03': the date, where it is known. `strict`: warnings are errors. `progress(done, all)`
 * is told of settled trips.
 *
 * `ceiling`: the cents to which a member's month is limited, or null. With one, months are those of UTC (`monthZone`).
 *
 * `files.members` may be there: it says who is who. So may `files.corrections`: then all that is said is of the
 * corrected trips. `correct`: what the corrections change is put out, too, and what they and late trips change in
 * closed months, as supplements; with `tolerant` those that cannot be priced are warnings. `reopen`: the trips go on
 * from books as they would be with these.
 *
 * Of the result, `roster` has the members of that file by name (`readMembers`) or is null; `closings` are the books,
 * month → file, `booksFile` is the name of those that were gone on from, `booksCeiling` the ceiling that they know or
 * null, `collected` what is kept of each member's month (`keptOf`), `months` are those that there are (`monthsOf`),
 * `open` the one to choose (`openMonth`), and `closing` what is to be said before the period is closed
 * (`closingDoubts`). `corrections` says how many trips are corrected (`correctionsIn`), `differences` has what that
 * changes (`differencesOf`), `supplements` has rows like those of the wages, and `reopens` is the first closed month
 * that would be another now, or null.
 */
export function runDesk({ files, period: asked = null, zone = 'Europe/Berlin', language = 'de', ...options }) {
    if (asked !== null && asked !== OPEN && !isPeriod(asked)) throw new RangeError(`${asked} is no month`);
    const { engine, today = null, ceiling = null } = options;
    if (ceiling !== null && !isCeiling(ceiling)) throw new RangeError(`${ceiling} is no ceiling`);
    const monthZone = monthZoneOf(ceiling, zone);
    const desk = deskOf({ ...options, zone, monthZone, ceiling }, files, language);
    const tariff = tariffIn(desk);
    const roster = readMembers(desk.files.members, desk.mistakes);
    const corrections = readCorrections(desk.files.corrections, desk.files.trips, desk.mistakes);
    const read = readTrips(desk.files.trips, tariff.editions, desk, desk.mistakes, corrections);
    const trips = correctedTrips(read);
    desk.mistakes.corrections = corrections;
    if (roster) checkMembers(trips, roster, desk.files.members, desk.mistakes);
    else warnOfNearMembers(desk, trips); // where it is said who is who, near names are two
    warnOfSlips(desk, trips, tripsByMember(trips));
    const closings = closingsIn(desk);
    const months = monthsOf(trips, [...closings.keys()]);
    const open = openMonth(months);
    const period = asked === OPEN ? open : asked;
    Object.assign(desk, { period, months, roster });
    const books = booksIn(desk, tariff, closings);
    const work = { books, closings, read, trips };
    const settled = desk.mistakes.count('error') === 0 ? settledOrNot(desk, tariff, work) : null;
    const errors = desk.mistakes.count('error'); // where warnings are errors, settling may have found some, too
    const { members, wages, refused, books: kept, collected, ...changes } = errors === 0 ? settled : NOTHING;
    const { differences, supplements } = changes;
    const unpaid = desk.reopen ? [] : [...new Set(supplements.rows.map((row) => row.period))].sort();
    let charges = null;
    return {
        mistakes: desk.mistakes.sorted(),
        errors,
        warnings: desk.mistakes.count('warning'),
        tariff: tariffOf(desk, tariff),
        ...{ period, zone, language, version: engine.version, tripFiles: desk.files.trips.map(({ name }) => name) },
        ...{ ceiling, monthZone, booksCeiling: books?.ceiling ?? null },
        ...{ closings, booksPeriod: books?.period ?? null, booksFile: books?.file.name ?? null },
        association: books?.association ?? null,
        ...{ roster, months, open, closing: closingDoubts({ period, today, months, closings, unpaid, language }) },
        ...{ members, wages, refused, books: kept, collected },
        ...{ corrections: correctionsIn(corrections, read), differences },
        ...{ supplements: supplements.rows, reopens: supplements.first },
        /** The largest table, made when it is asked for. */
        get charges() {
            return (charges ??= chargesOf(this));
        },
    };
}

/** The period that is asked for where it is to be the open month. */
export const OPEN = 'open';

/** What a result says of the tariff: its bytes and their hash, and each edition with the caps of its areas. */
function tariffOf({ engine, mistakes }, { bytes, hash, editions }) {
    const clean = mistakes.count('error') === 0;
    const own = editions.map(({ areas, stops, ...edition }) => {
        return { ...edition, areas: areas ?? [], stops: stops ?? [], caps: clean ? capsOf(engine, areas) : [] };
    });
    return { bytes, hash, editions: own };
}

const NOTHING = {
    ...{ members: [], wages: [], refused: 0, books: new Map(), collected: new Map() },
    ...{ differences: [], supplements: NO_SUPPLEMENTS },
};

function deskOf(rest, given, language) {
    const files = filesOf(given);
    const names = Object.values(files).flat().map(({ name }) => name);
    const named = !Array.isArray(given.books); // books that were given by themselves are meant
    const mistakes = new Mistakes(language, names, rest.strict);
    return { ...rest, files, named, several: files.trips.length > 1, mistakes };
}

function filesOf(files) {
    const books = [files.books ?? []].flat().map((given) => fileOf(given, 'books'));
    const [areas, stops] = [tariffFilesOf(files.areas, NAMES.areas), tariffFilesOf(files.stops, NAMES.stops)];
    const [corrections, members] = ['corrections', 'members'].map((sort) => fileOf(files[sort], NAMES[sort]));
    return { areas, stops, trips: tripFilesOf(files.trips), corrections, members, books };
}

/** The files of areas or of stops; where there is none of the first edition, the one that is missing. */
function tariffFilesOf(given, name) {
    const files = [given ?? []].flat().map((file) => fileOf(file, name));
    return files.some((file) => dayInName(file.name) === null) ? files : [fileOf(null, name), ...files];
}

/** The files of trips, each with a name of its own; of none the one that is missing. */
function tripFilesOf(given) {
    const list = Array.isArray(given) ? given : [given];
    const files = (list.length > 0 ? list : [null]).map((file) => fileOf(file, NAMES.trips));
    return files.map((file, i) => {
        const before = files.slice(0, i).filter(({ name }) => name === file.name).length;
        return before === 0 ? file : { ...file, name: `${file.name} (${before + 1})` };
    });
}

function fileOf(given, name) {
    if (given === undefined || given === null) return { name, bytes: null };
    if (typeof given === 'string') return { name, bytes: new TextEncoder().encode(given) };
    return given instanceof Uint8Array ? { name, bytes: given } : { name: given.name ?? name, bytes: given.bytes };
}

// ---- The tariff

function tariffIn({ engine, files, mistakes }) {
    const tariff = readTariff(editionFiles(files, mistakes), mistakes);
    if (tariff.bytes === null) return tariff;
    const answer = engine.checkTariff(tariff.bytes);
    if (!answer.accepted) {
        const { number, place } = answer.refusal;
        const { file, line } = recordAt(tariff, place);
        mistakes.error(file, line, 'tariffRefused', { number, text: engine.refusalText(number, mistakes.language) });
    }
    return tariff;
}

// ---- Trips

/** Nothing is put out where sums disagree: that is an error like any other. */
function settledOrNot(desk, tariff, work) {
    try {
        const supplements = closedTrips(desk, tariff, work);
        const books = desk.reopen ? reopened(work.books, supplements) : work.books;
        const settled = settleAll(desk, tariff, books, work.trips);
        if (settled === null) return null;
        warnOfLostWindows(desk, settled.members);
        const differences = desk.correct ? differencesIn(desk, tariff, work, settled, supplements) : [];
        const refused = settled.refused + supplements.refused;
        return { ...settled, refused, differences: [...differences, ...supplements.differences], supplements };
    } catch (error) {
        if (!(error instanceof Disagreement)) throw error;
        const { member, what } = error;
        return desk.mistakes.error(desk.files.trips[0].name, 1, 'disagreement', { member, what });
    }
}

/** What is told of trips of closed months or, where it is asked for, what they cost as supplements. */
function closedTrips(desk, tariff, { books, closings, read, trips }) {
    if (books === null) return NO_SUPPLEMENTS;
    const spans = closedSpans(books, closings, read, trips);
    if (!desk.correct) tellClosed(desk, spans, tariff.editions, books.period);
    if (!desk.correct) return NO_SUPPLEMENTS;
    const settle = ({ ceiling = null, before }, name, account, own, counts) => {
        const member = settled({ ...desk, ceiling }, tariff, name, account, own, counts);
        if (isUnsound(member)) desk.mistakes.error(closings.get(before).name, 1, 'bookUnsound', { member: name });
        warnOfRefused(desk, tariff, member, account.book);
        return member;
    };
    const inOrder = (members) => byName(members, desk.mistakes.language);
    return supplementsOf(desk, tariff, { books, closings, spans, settle, inOrder });
}

/** What corrections change in the trips that are due, and what the supplements do where the trips go on from them. */
function differencesIn(desk, tariff, { books, read }, { members }, supplements) {
    const inPeriod = inPeriodOf(desk);
    const silent = { ...desk, mistakes: { error: () => null } }; // what is amiss is told of the corrected trips
    const settle = (name, trips) => settled(silent, tariff, name, accountIn(books, name), trips, inPeriod);
    const was = dueTrips(desk, books, read);
    const counts = (trip) => inPeriod(trip) && trip.month > (books?.period ?? '');
    const others = desk.reopen ? [...supplements.accounts.keys()] : [];
    const groups = differencesOf({ read, was, members, others, counts, settle, ceiling: desk.ceiling });
    return byName(groups, desk.mistakes.language).flatMap(([, rows]) => rows);
}

/** Books as they would be with the supplements. */
function reopened(books, { accounts }) {
    if (books === null) return null;
    const own = (key) => [...accounts].map(([name, account]) => [name, account[key]]);
    const collected = books.collected && new Map([...books.collected, ...own('kept')]);
    return { ...books, books: new Map([...books.books, ...own('book')]), collected };
}

const inPeriodOf = ({ period }) => ({ month }) => period === null || month === period;

function settleAll(desk, tariff, books, trips) {
    const { mistakes, ceiling } = desk;
    const due = dueTrips(desk, books, trips);
    const kept = new Map(books?.books ?? []);
    const collected = new Map(books?.collected ?? []);
    warnOfNearBooks(desk, [...kept.keys()], due);
    const members = [];
    let done = 0;
    for (const [name, own] of byName(tripsByMember(due), mistakes.language)) {
        const account = accountIn(books, name);
        const member = settled(desk, tariff, name, account, own, inPeriodOf(desk));
        if (isUnsound(member)) return mistakes.error(books.file.name, 1, 'bookUnsound', { member: name });
        warnOfRefused(desk, tariff, member, account.book);
        members.push(member);
        kept.set(name, member.book);
        collected.set(name, member.kept);
        done += own.length;
        desk.progress?.(done, due.length);
    }
    const wages = wagesOf(members, desk.roster, ceiling);
    agreeWages(wages, members, ceiling);
    return { members, wages, books: kept, collected, refused: wages.reduce((sum, row) => sum + row.refused, 0) };
}

const isUnsound = ({ entries }) => entries.some(({ refusal }) => refusal?.number === 4);

/** A member's trips on the book and, under a ceiling, on what is kept of the month. */
function settled({ engine, zone, ceiling, mistakes }, tariff, name, { book, kept }, trips, inPeriod) {
    const month = ceiling === null ? undefined : { ceiling, kept };
    const note = ({ file, line }, key, values) => mistakes.error(file, line, key, values);
    return settleMember({ engine, tariff, zone, name, book, month, trips, inPeriod, note });
}

/** The members as the language sorts them, numbers in names by their size. */
function byName(members, language) {
    const { compare } = new Intl.Collator(language, { numeric: true });
    return [...members].sort(([one], [other]) => compare(one, other));
}

/** Tells of each refused trip, and of one that begins too early what it runs into. */
function warnOfRefused({ zone, mistakes, several }, tariff, member, book) {
    let last = null;
    for (const entry of member.entries) {
        if (entry.accepted) last = entry;
        if (entry.accepted || !entry.inPeriod) continue;
        const note = (key, values) => mistakes.warning(entry.file, entry.line, key, values);
        const number = entry.refusal.number;
        if (number !== 10) note('refused', { number, text: reasonText(entry, tariff.editions, mistakes.language) });
        else if (last) note('overlaps', placeOf(last, several));
        else note('beforeBooks', { until: momentIn(clockOf(zone), lastCheckOut(book)).local.replace('T', ' ') });
    }
}
