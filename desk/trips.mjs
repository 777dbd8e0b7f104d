// Trips from trips.csv: names become stops, clock times minutes, and each is made a trip record (docs/FORMAT.md).
import { clockOf, dayOf, momentOf, monthOf, offsetText, timeOf, tripTimes } from './clock.mjs';
import { readTable } from './csv.mjs';
import { inForce, possibleAt } from './editions.mjs';
import { wholeIn, wordIn } from './fields.mjs';
import { tidy } from './names.mjs';
import { remembered } from './remembered.mjs';
import { directory, nearThing } from './tariff.mjs';

const LEVELS = ['K', 'A', 'B', 'C', 'D'];
const MOST_STOPS = 32;

/** The columns of trips.csv, and whether each has to be there; the others may be empty, and so may be left out. */
export const TRIP_COLUMNS = {
    member: true, date: true, depart: true, arrive: true, from: true, to: true,
    via: false, class: false, level: false, adults: false, children: false, bicycles: false,
};

/**
 * The trips of all files, in the files' order and by line. Where the stops of an edition could not be read, `stops` is
 * null there: names are then not looked for. A row with a mistake is none of the trips. Clock times are those of
 * `zone`, and months those of `monthZone`. Of a trip that is corrected, `corrected` is what it becomes, or null where
 * it is cancelled; the trip itself stays as it was.
 */
export function readTrips(files, editions, { zone, monthZone }, mistakes, corrections = null) {
    const sheet = { clock: clockOf(zone), monthZone, editions, stopIn: stopFinder(editions) };
    return files.flatMap((file) => tripsIn(file, sheet, mistakes, corrections));
}

function tripsIn(file, sheet, mistakes, corrections) {
    const read = (row, tell) => {
        let right = true;
        const note = (key, values) => {
            right = false;
            return tell(key, values);
        };
        const trip = readTrip(file.name, row, sheet, note);
        return right ? trip : null;
    };
    const take = (row) => {
        const tell = (key, values) => mistakes.error(file.name, row.line, key, values);
        return corrections ? corrections.read(file.name, row, read, tell) : read(row, tell);
    };
    const trips = readTable(file, TRIP_COLUMNS, mistakes, take);
    if (trips !== null) corrections?.end(file.name);
    return trips ?? [];
}

const tidied = remembered(tidy);

function readTrip(file, row, { clock, monthZone, editions, stopIn }, note) {
    const member = tidied(row.member);
    if (member === '') note('blank', { column: 'member' });
    const { checkIn, checkOut, month } = timesIn(row, clock, monthZone, note);
    const names = namesIn(row, stopIn, editionsAt(editions, checkIn), note);
    const [travelClass, level, party] = [classIn(row, note), levelIn(row, note), partyIn(row, note)];
    const none = undefined; // what is put into a trip later has its place from the start: each is of one form and size
    const trip = {
        file, line: row.line, member, checkIn, checkOut, month, names, edition: none, from: none, to: none, via: none,
        class: travelClass, level, party,
        inPeriod: none, accepted: none, refusal: none, window: none, cents: none, collected: none, parts: none,
        original: none, corrected: none,
    };
    if (checkIn) takeStops(trip, inForce(editions, checkIn.minute).number);
    return trip;
}

/** A trip by itself, as it was read: what is put into it when it is settled is not there. */
export function unsettled(trip) {
    const none = undefined;
    const settled = { accepted: none, refusal: none, window: none, cents: none, collected: none, parts: none };
    return { ...trip, inPeriod: none, ...settled };
}

// ---- Stops

/** The editions that may settle a trip, the one in force at its check-in last; all, where that is not known. */
function editionsAt(editions, checkIn) {
    return editions.length === 1 || !checkIn ? editions : possibleAt(editions, checkIn.minute);
}

const NO_CHANGES = Object.freeze([]);

/** What the row's stops are in each edition. One that is in none of those that may settle the trip is a mistake. */
function namesIn(row, stopIn, editions, note) {
    const find = (column, text) => {
        const name = stopIn(text);
        const lacking = editions.every(({ number }) => name.faults[number - 1]);
        if (lacking) tellFault(name, column, editions.at(-1).number, note);
        return name;
    };
    const via = row.via === '' ? NO_CHANGES : changesIn(row, find, note);
    const end = (column) => (row[column] === '' ? note('blank', { column }) : find(column, row[column]));
    return { from: end('from'), via, to: end('to') };
}

function changesIn(row, find, note) {
    const texts = row.via.split('|').filter((text) => tidied(text) !== '');
    if (texts.length + 2 > MOST_STOPS) note('tooManyStops', { found: texts.length + 2 });
    return texts.map((text) => find('via', text));
}

function tellFault({ faults }, column, edition, note) {
    const { key, values } = faults[edition - 1];
    note(key, { column, ...values });
}

const numberIn = (edition) => (name) => name?.numbers[edition - 1] ?? null;

/** Gives the trip the numbers that its stops have in an edition. */
export function takeStops(trip, edition) {
    const { from, via, to } = trip.names;
    const number = numberIn(edition);
    trip.edition = edition;
    trip.from = number(from);
    trip.via = via.length === 0 ? NO_CHANGES : via.map(number);
    trip.to = number(to);
}

/** The numbers that a trip's stops have in an edition, from the first to the last; null for one that it lacks. */
export function stopsIn({ names: { from, via, to } }, edition) {
    return [from, ...via, to].map(numberIn(edition));
}

/** What tells the stops of a trip from another's, whatever words they were written in and whichever edition it has. */
export function stopsKey({ names: { from, via, to } }) {
    return [from, ...via, to].map(({ numbers }) => numbers.join('/')).join();
}

/** Tells of each stop of the trip that the edition lacks; whether it has all of them. */
export function hasStops({ names: { from, via, to } }, edition, note) {
    const lacking = [['from', from], ...via.map((name) => ['via', name]), ['to', to]];
    const told = lacking.filter(([, { faults }]) => faults[edition - 1]);
    for (const [column, name] of told) tellFault(name, column, edition, note);
    return told.length === 0;
}

const MOST_SUGGESTIONS = 500; // looking for near names takes time, and a file with more unknown ones is of other stops
const NOT_LOOKED_FOR = { numbers: NO_CHANGES, faults: NO_CHANGES };

/**
 * Finds a stop by id or name, each text once: `numbers` has its number in each edition, and `faults`, where it has
 * none, what is amiss there as the key and the values of a mistake.
 */
function stopFinder(editions) {
    if (editions.some(({ stops }) => !stops)) return () => NOT_LOOKED_FOR;
    const finders = editions.map(({ stops }) => directory(stops));
    const all = editions.flatMap(({ stops }) => stops);
    let unknown = 0;
    const near = (text) => {
        unknown += 1;
        return unknown <= MOST_SUGGESTIONS ? nearThing(text, all) : null;
    };
    return remembered((text) => {
        const value = tidy(text);
        const found = finders.map((find) => find(value));
        const known = editions.filter((_, i) => found[i].length > 0);
        const none = known.length === 0 ? { key: 'noStop', values: { value, near: near(value) } } : null;
        const fault = (own, i) => none ?? faultOf(value, own, editions[i], known[0]);
        return { numbers: found.map((own) => (own.length === 1 ? own[0].index : null)), faults: found.map(fault) };
    });
}

/** What is amiss with what was found in an edition, where another one knows the stop. */
function faultOf(value, found, edition, other) {
    if (found.length === 1) return null;
    if (found.length > 1) return { key: 'manyStops', values: { value, ids: found.map(({ id }) => id) } };
    return { key: 'otherStop', values: { value, edition, other } };
}

// ---- Times

const NO_TIMES = {};
const daysBy = remembered(dayOf);
const timesBy = remembered(timeOf);

function timesIn(row, clock, monthZone, note) {
    const day = dateIn(row, note);
    const depart = timeIn(row, 'depart', '23:59', note);
    const arrive = timeIn(row, 'arrive', '47:59', note);
    if (day === null || depart === null || arrive === null) return NO_TIMES;
    const { faults, checkIn, checkOut } = tripTimes(clock, day, depart, arrive);
    for (const fault of faults ?? []) noteFault(fault, row, note);
    if (faults) return NO_TIMES;
    const month = monthOf(monthZone, Math.max(0, checkIn.minute)); // to whose wages it goes; there is none before 2000
    return { checkIn: momentOf(checkIn), checkOut: momentOf(checkOut), month };
}

function dateIn(row, note) {
    if (row.date === '') return note('blank', { column: 'date' });
    return daysBy(row.date) ?? note('badDate', { value: row.date });
}

function timeIn(row, column, most, note) {
    const value = row[column];
    if (value === '') return note('blank', { column });
    const time = timesBy(value);
    return time && (most === '47:59' || time.minutes < 1440) ? time : note('badTime', { column, value, most });
}

const FAULTS = { twice: 'hourTwice', never: 'hourNever', offset: 'hourOffset', before: 'endsBefore' };

function noteFault({ column, fault, offsets = [] }, row, note) {
    note(FAULTS[fault], { column, value: row[column], offsets: offsets.map(offsetText) });
}

/** A minute with what the clock shows then. */
export function momentIn(clock, minute) {
    return momentOf({ minute, offset: clock.offsetAt(minute) });
}

/** Such a moment as one text: '2026-10-31T23:50+01:00'. */
export const isoOf = ({ local, offset }) => local + offset;

// ---- The rest of a row

function classIn(row, note) {
    if (row.class === '') return 2;
    return Number(wordIn(row, 'class', ['1', '2'], note));
}

function levelIn(row, note) {
    if (row.level === '') return null;
    const level = row.level.toUpperCase();
    return LEVELS.includes(level) ? level : note('noLevel', { value: row.level });
}

const NOBODY = Object.freeze({ adults: 0, children: 0, bicycles: 0 });

function partyIn(row, note) {
    if (row.adults === '' && row.children === '' && row.bicycles === '') return NOBODY;
    const number = (column) => wholeIn(row, column, 0, 10, note, 0);
    return { adults: number('adults'), children: number('children'), bicycles: number('bicycles') };
}

// ---- Order and bytes

/**
 * The trips of each member, members in the files' order, a member's trips by check-in, then as they came: in the files'
 * order and by line.
 */
export function tripsByMember(trips) {
    const members = new Map();
    for (const trip of trips) {
        if (!members.has(trip.member)) members.set(trip.member, []);
        members.get(trip.member).push(trip);
    }
    for (const own of members.values()) own.sort((a, b) => a.checkIn.minute - b.checkIn.minute);
    return members;
}

/** The number that two figures of a text say. */
const figures = (text, at) => 10 * (text.charCodeAt(at) - 48) + text.charCodeAt(at + 1) - 48;

/** A number as two bytes, the lower one first. */
function putTwo(bytes, at, number) {
    bytes[at] = number & 255;
    bytes[at + 1] = number >> 8;
}

/** Year, month, day, hour, minute and hours ahead, from '2026-10-31T23:50' and '+01:00', as seven bytes. */
function putStamp(bytes, at, { local, offset }) {
    putTwo(bytes, at, 100 * figures(local, 0) + figures(local, 2));
    for (let i = 0; i < 4; i += 1) bytes[at + 2 + i] = figures(local, 5 + 3 * i);
    bytes[at + 6] = figures(offset, 1);
}

/**
 * Writes the trip's record and answers its length: first its length without these two bytes, then its kind, two stamps,
 * the ride and the stops.
 */
export function putTrip(bytes, { checkIn, checkOut, class: travelClass, level, party, from, via, to }) {
    const number = via.length + 2;
    const length = 24 + 2 * number;
    putTwo(bytes, 0, length - 2);
    putTwo(bytes, 2, 7);
    putStamp(bytes, 4, checkIn);
    putStamp(bytes, 11, checkOut);
    bytes[18] = travelClass;
    bytes[19] = LEVELS.indexOf(level) + 1;
    bytes[20] = party.adults;
    bytes[21] = party.children;
    bytes[22] = party.bicycles;
    bytes[23] = number;
    putTwo(bytes, 24, from);
    for (let i = 0; i < via.length; i += 1) putTwo(bytes, 26 + 2 * i, via[i]);
    putTwo(bytes, length - 2, to);
    return length;
}

/** The trip's record. */
export function tripBytes(trip) {
    const bytes = new Uint8Array(24 + 2 * MOST_STOPS);
    return bytes.subarray(0, putTrip(bytes, trip));
}
