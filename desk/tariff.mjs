// The tariff from the files of its editions: its bytes (docs/FORMAT.md), and which line each of its records comes from.
import { IN_HEADER, readTable } from './csv.mjs';
import { sinceDay } from './editions.mjs';
import { centsIn, noteTaken, wholeIn, wordIn } from './fields.mjs';
import { sha256 } from './hash.mjs';
import { nearest, tidy } from './names.mjs';
import { remembered } from './remembered.mjs';

const LEVELS = ['state', 'region', 'city'];
const TICKETS = ['k', 'a', 'b', 'c', 'd'];
const MOST = 60000; // cents of any amount but the two prices
const NO_DAY_CAP = 65535;

const due = (names) => Object.fromEntries(names.map((name) => [name, true]));
const free = (names) => Object.fromEntries(names.map((name) => [name, false]));
const inHeader = (names) => Object.fromEntries(names.map((name) => [name, IN_HEADER]));

/** The columns of areas.csv, and whether each has to be there. */
export const AREA_COLUMNS = {
    ...due(['id', 'name', 'level', 'base', 'per_km', 'valid_min', 'first_percent', 'child_percent', 'bicycle']),
    ...inHeader(['within', 'day_cap', 'factor']), // what is empty there says something, too
    ...free(['kind', 'city_whole', 'trip_cap', 'trip_cap_min', ...TICKETS.map((ticket) => `cap_${ticket}`)]),
    ...free(['bicycle_trip', 'town', 'child_ticket', ...TICKETS.map((ticket) => `child_${ticket}`)]),
};

/** The columns of stops.csv. */
export const STOP_COLUMNS = due(['id', 'name', 'area', 'x_m', 'y_m']);

/**
 * Reads the files of each edition (`editionFiles`). `editions` has of each {number, from, next, since, files, areas,
 * stops}: the day and the minute from which it is valid, the day of the next one or null, and the names of its files.
 * `bytes` is null where a mistake in them leaves no tariff; else each edition has besides the hashes of its own tariff
 * and of what stands in its areas, `hash` and `values`, and `records` are those of all of them.
 */
export function readTariff(files, mistakes) {
    const before = mistakes.count('error');
    const stopsOf = remembered((file) => readStops(file, mistakes)); // both may have the same ones
    const editions = files.map(({ from, areas: areasFile, stops: stopsFile }, i) => {
        const areas = readAreas(areasFile, mistakes);
        const names = { areas: areasFile.name, stops: stopsFile.name };
        const shared = i > 0 && stopsFile === files[0].stops;
        const stops = placedStops(stopsOf(stopsFile), areas ?? [], names, shared, mistakes);
        const next = files[i + 1]?.from ?? null;
        return { number: i + 1, from, next, since: sinceDay(from), files: names, areas, stops };
    });
    const whole = editions.every(({ areas, stops }) => areas && stops) && mistakes.count('error') === before;
    return whole ? wholeTariff(editions) : { editions, bytes: null };
}

/**
 * The hash of what the numbers of areas mean, by which a book knows them: of each in order its id, level, parent and
 * kind. Prices and names may change, and areas may come behind.
 */
export function structureOf(areas) {
    const meaning = areas.map(({ id, level, parent, kind }) => [id, level, parent, kind]);
    return sha256(new TextEncoder().encode(JSON.stringify(meaning)));
}

// ---- Names

/** Finds things by id, then by name: `find` answers one, several of a name, or none. */
export function directory(things) {
    const byId = new Map(things.map((thing) => [thing.id, thing]));
    const byName = new Map();
    for (const thing of things) byName.set(thing.name, [...(byName.get(thing.name) ?? []), thing]);
    return (text) => (byId.has(text) ? [byId.get(text)] : (byName.get(text) ?? []));
}

/** The names and ids that may have been meant. */
export function nearThing(text, things) {
    return nearest(text, [...things.map(({ name }) => name), ...things.map(({ id }) => id)]);
}

/** Id and name of each row, tidied. No two may have one id; of `own` names neither one name. */
function named(file, rows, own, mistakes) {
    const [ids, names] = [new Map(), new Map()];
    return rows.map(({ id: idText, name: nameText, line }, index) => {
        const note = (key, values) => mistakes.error(file, line, key, values);
        const [id, name] = [tidy(idText), tidy(nameText)];
        noteTaken(ids, 'id', id, line, note);
        noteTaken(own ? names : new Map(), 'name', name, line, note);
        return { index, line, id, name };
    });
}

// ---- Areas

/** The areas of a file, in order; null where no row can be read. */
function readAreas(file, mistakes) {
    const rows = readTable(file, AREA_COLUMNS, mistakes);
    if (rows === null) return null;
    const areas = named(file.name, rows, true, mistakes); // a statement names areas by name alone
    const find = directory(areas);
    rows.forEach((row, i) => {
        const note = (key, values) => mistakes.error(file.name, row.line, key, values);
        const area = areas[i];
        area.level = levelOf(row, i, note);
        area.kind = Number(wordIn(row, 'kind', ['1', '8'], note, '1'));
        area.parent = parentOf(row, area, areas, find, note);
        Object.assign(area, pricesOf(row, note), capsOf(row, note));
        Object.assign(area, factorOf(row, area, note), aachenOf(row, area, note));
    });
    return areas;
}

function levelOf(row, index, note) {
    const level = row.level.toLowerCase();
    if (!LEVELS.includes(level)) return note('noAreaLevel', { value: row.level });
    if ((level === 'state') !== (index === 0)) note('noState');
    return level;
}

/** The number of the area around this one. Of the state and of a region that is 0, which need not be written. */
function parentOf(row, area, areas, find, note) {
    const text = tidy(row.within);
    if (text === '') return area.level === 'city' ? note('blank', { column: 'within' }) : 0;
    const parent = find(text)[0];
    if (!parent) return note('noArea', { column: 'within', value: text, near: nearThing(text, areas) });
    const right = area.level === 'city' ? parent.level === 'region' && parent.index < area.index : parent.index === 0;
    return right || !area.level ? parent.index : note('notWithin', { value: text });
}

function pricesOf(row, note) {
    return {
        base: centsIn(row, 'base', 10000, note),
        perKm: centsIn(row, 'per_km', 1000, note),
        validity: wholeIn(row, 'valid_min', 30, 1440, note),
        first: wholeIn(row, 'first_percent', 0, 100, note),
        child: wholeIn(row, 'child_percent', 0, 100, note),
        dayCap: centsIn(row, 'day_cap', MOST, note, null),
        bicycle: centsIn(row, 'bicycle', MOST, note),
    };
}

/** The trip cap: none, flat up to some minutes, or by ticket level. */
function capsOf(row, note) {
    const columns = TICKETS.map((ticket) => `cap_${ticket}`);
    const flat = row.trip_cap !== '' || row.trip_cap_min !== '';
    const levels = columns.some((column) => row[column] !== '');
    if (flat && levels) note('capsMixed');
    if (levels) return { capSort: 2, caps: columns.map((column) => centsIn(row, column, MOST, note)) };
    if (!flat) return { capSort: 0, caps: [0, 0, 0, 0, 0] };
    const caps = [centsIn(row, 'trip_cap', MOST, note), wholeIn(row, 'trip_cap_min', 30, 1440, note), 0, 0, 0];
    return { capSort: 1, caps };
}

const STATE_AND_REGIONS = { de: 'Land und Regionen', en: 'the state and regions' };
const KIND_8 = { de: 'Gebiete der Art 8', en: 'areas of kind 8' };
const FLAT_CAPS = { de: 'Gebiete mit trip_cap', en: 'areas with trip_cap' };
const LEVEL_CAPS = { de: 'Gebiete mit cap_k bis cap_d', en: 'areas with cap_k to cap_d' };

/** Tells of each column that is filled though it is only for other areas. */
function emptyIn(row, columns, where, note) {
    for (const column of columns) if (row[column] !== '') note('notHere', { column, where });
}

/** When a ride out and back is two: of the state and of regions. */
function factorOf(row, area, note) {
    if (area.level === 'city') {
        emptyIn(row, ['factor', 'city_whole'], STATE_AND_REGIONS, note);
        return {};
    }
    const whole = wordIn(row, 'city_whole', ['yes', 'no', 'ja', 'nein'], note, 'no');
    return { factor: wholeIn(row, 'factor', 1, 9, note), cityWhole: ['yes', 'ja'].includes(whole) };
}

/** What an area of kind 8 has besides: tickets for children, a bicycle's price per trip, and what a town drops. */
function aachenOf(row, area, note) {
    const columns = TICKETS.map((ticket) => `child_${ticket}`);
    if (area.kind !== 8) {
        emptyIn(row, ['bicycle_trip', 'town', 'child_ticket', ...columns], KIND_8, note);
        return {};
    }
    const town = wordIn(row, 'town', ['base', 'km'], note, '');
    const bicycleTrip = centsIn(row, 'bicycle_trip', MOST, note);
    const sort = capsOf(row, () => null).capSort;
    if (sort !== 1) emptyIn(row, ['child_ticket'], FLAT_CAPS, note);
    if (sort !== 2) emptyIn(row, columns, LEVEL_CAPS, note);
    const flat = () => [centsIn(row, 'child_ticket', MOST, note), 0, 0, 0, 0];
    const tickets = [() => [0, 0, 0, 0, 0], flat, () => columns.map((column) => centsIn(row, column, MOST, note))];
    return { town: ['', 'base', 'km'].indexOf(town), bicycleTrip, tickets: tickets[sort]() };
}

// ---- Stops

/** The stops of a file, in order, each with what it says of its area; null where no row can be read. */
function readStops(file, mistakes) {
    const rows = readTable(file, STOP_COLUMNS, mistakes);
    if (rows === null) return null;
    const stops = named(file.name, rows, false, mistakes); // of a name that several have, a trip has to say the id
    return rows.map((row, i) => {
        const note = (key, values) => mistakes.error(file.name, row.line, key, values);
        const areaText = tidy(row.area);
        if (areaText === '') note('blank', { column: 'area' });
        const [x, y] = ['x_m', 'y_m'].map((column) => wholeIn(row, column, 0, 1000000, note));
        return { ...stops[i], areaText, x, y };
    });
}

/** The stops with the numbers of their areas. `shared`: they are the first edition's, and these are other areas. */
function placedStops(stops, areas, files, shared, mistakes) {
    const find = directory(areas);
    const place = (stop) => {
        const { areaText: value, line } = stop;
        const area = find(value)[0];
        if (area || value === '') return { ...stop, area: area?.index };
        const values = { column: 'area', value, near: nearThing(value, areas), areas: shared ? files.areas : null };
        mistakes.error(files.stops, line, 'noArea', values);
        return stop;
    };
    return stops && stops.map(place);
}

// ---- Bytes

/** Numbers of 1, 2 and 4 bytes one behind another, little-endian, as a record: its length and kind come first. */
export function recordBytes(kind, fields) {
    let length = 4;
    for (const [width] of fields) length += width;
    const bytes = new Uint8Array(length);
    let at = 0;
    const put = (width, value) => {
        for (let i = 0; i < width; i += 1) bytes[at + i] = Math.floor(value / 256 ** i); // a byte keeps the rest by 256
        at += width;
    };
    put(2, length - 2);
    put(2, kind);
    for (const [width, value] of fields) put(width, value);
    return bytes;
}

function areaRecord(area) {
    const common = [
        [1, LEVELS.indexOf(area.level)], [1, area.parent], [2, area.base], [2, area.perKm], [2, area.validity],
        [1, area.first], [1, area.child], [1, area.capSort], ...area.caps.map((value) => [2, value]),
        [2, area.dayCap ?? NO_DAY_CAP], [2, area.bicycle],
    ];
    if (area.kind === 1) return recordBytes(1, common);
    const tickets = area.tickets.map((value) => [2, value]);
    return recordBytes(8, [...common, ...tickets, [2, area.bicycleTrip], [1, area.town]]);
}

function factorRecord(area) {
    return recordBytes(5, [[1, area.factor], [1, area.cityWhole ? 1 : 0]]);
}

function stopRecord(stop) {
    return recordBytes(2, [[1, stop.area], [4, stop.x], [4, stop.y]]);
}

/** The record that opens an edition: the day from which it is valid, '2026-06-01'. */
export function openingRecord(from) {
    const [year, month, day] = from.split('-').map(Number);
    return recordBytes(9, [[2, year], [1, month], [1, day]]);
}

const joined = (records) => Uint8Array.from(records.flatMap(({ bytes }) => [...bytes]));

/** The records of an edition's tariff, each with file and line: those of its areas, and its stops. */
function recordsOf({ areas, stops, files }) {
    const of = (file, things, make) => things.map((thing) => ({ bytes: make(thing), file, line: thing.line }));
    const factors = areas.filter(({ level }) => level !== 'city');
    const values = [...of(files.areas, areas, areaRecord), ...of(files.areas, factors, factorRecord)];
    return { values, stops: of(files.stops, stops, stopRecord) };
}

/** All editions one behind another: the bytes, and for each record its place, file and line. */
function wholeTariff(editions) {
    const own = editions.map(recordsOf);
    const hashed = editions.map((edition, i) => {
        const { values, stops } = own[i];
        return { ...edition, hash: sha256(joined([...values, ...stops])), values: sha256(joined(values)) };
    });
    const all = editions.flatMap(({ from, files }, i) => {
        const opening = { bytes: openingRecord(from), file: files.areas, line: 1, opens: i + 1 };
        return [opening, ...own[i].values, ...own[i].stops];
    });
    const bytes = joined(all);
    let end = 0;
    const records = all.map(({ bytes: { length }, ...record }) => ({ at: (end += length) - length, ...record }));
    return { editions: hashed, bytes, hash: sha256(bytes), records };
}

/**
 * The file and line of the record at a refusal's place; the last one's, where the tariff ends too early. So it is told
 * of the first edition, too: where the second begins, something of the first is missing.
 */
export function recordAt({ records }, place) {
    const found = records.findLastIndex(({ at }) => at <= place);
    return records[records[found].opens === 2 ? found - 1 : found];
}
