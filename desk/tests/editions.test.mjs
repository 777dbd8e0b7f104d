// Two editions of a tariff: which files they are, which one settles a trip, what statements and books say of them.
import assert from 'node:assert/strict';
import { spawnSync } from 'node:child_process';
import fs from 'node:fs';
import os from 'node:os';
import path from 'node:path';
import { after, before, test } from 'node:test';
import { booksText } from '../books.mjs';
import { dayInName, editionFiles, inForce, possibleAt } from '../editions.mjs';
import { Mistakes } from '../mistakes.mjs';
import { statementHtml } from '../sheets.mjs';
import { statementText } from '../statement.mjs';
import { chargesText, wagesText } from '../wages.mjs';
import { AREAS, DAY, STOPS, both, file } from './rheinland.mjs';
import { ROOT, TRIPS, engine, run, said, sample } from './support.mjs';

const trip = (member, date, times, from, to, rest = ',,,,,') => `${member},${date},${times},${from},${to},${rest}\n`;
const two = (trips, options = {}) => run(TRIPS + trips, { ...both(), ...options });
const first = (trips, options = {}) => run(TRIPS + trips, options);
const second = (trips, options = {}) => run(TRIPS + trips, { areas: AREAS, stops: STOPS, ...options });
const entriesOf = (result) => result.members.flatMap(({ entries }) => entries);
const cents = (result) => entriesOf(result).map((entry) => entry.cents);
const editions = (result) => entriesOf(result).map(({ edition }) => edition);

// From Münster to Aachen in the last hours of May, and on in the morning: one window.
const EVENING = trip('Anna', '2026-05-31', '22:40,23:55', 'Münster Hbf', 'Aachen Hbf');
const MORNING = trip('Anna', '2026-06-01', '05:30,06:45', 'Aachen Hbf', 'Düren Bf');
const LATER = trip('Anna', '2026-06-02', '05:30,06:45', 'Aachen Hbf', 'Düren Bf');

// ---- The file

test('the file has a record of kind 9 before each edition, and numbers of its own in each', () => {
    const result = two(EVENING);
    assert.deepEqual(said(result), []);
    const { bytes, editions: own } = result.tariff;
    const openings = [];
    for (let at = 0; at < bytes.length; at += 2 + bytes[at] + 256 * bytes[at + 1]) {
        if (bytes[at + 2] === 9) openings.push([at, ...bytes.subarray(at, at + 8)]);
    }
    const length = first(EVENING).tariff.bytes.length;
    assert.deepEqual(openings, [
        [0, 6, 0, 9, 0, 0xd0, 7, 1, 1],
        [length, 6, 0, 9, 0, 0xea, 7, 6, 1],
    ]);
    assert.deepEqual(bytes.subarray(0, length), first(EVENING).tariff.bytes);
    assert.deepEqual(bytes.subarray(length + 8), second(EVENING).tariff.bytes.subarray(8));
    assert.deepEqual(own.map(({ areas }) => areas.findIndex(({ id }) => id === 'WF')), [1, 2]);
    assert.deepEqual(own.map(({ stops }) => stops.findIndex(({ id }) => id === 'ms-hbf')), [0, 1]);
    assert.deepEqual(own.map(({ from, since }) => [from, since]), [['2000-01-01', 0], [DAY, 13893120]]);
    assert.deepEqual(engine.checkTariff(bytes), { accepted: true, bytes: bytes.length });
});

test('the second edition may have the same stops, whose areas it has to have', () => {
    const dear = sample('areas.csv').replace('NRW;NRW;1;state;;1,80', 'NRW;NRW;1;state;;1,90');
    const areas = [file('areas.csv', sample('areas.csv')), file(`areas-${DAY}.csv`, dear)];
    const ride = (date) => trip('Anna', date, '08:00,08:30', 'Köln Hbf', 'Düsseldorf Hbf'); // at the state's price
    const [may, june] = cents(run(TRIPS + ride('2026-05-20') + ride('2026-06-20'), { areas }));
    assert.equal(june - may, 10);
    const [, given] = both().areas;
    const lacking = said(run(TRIPS + EVENING, { areas: [areas[0], given] }));
    assert.equal(lacking.length, 8); // the stops of the three areas that are gone, each told once
    assert.equal(lacking[0], `stops.csv:23: area 'Aachen (AVV)': no such area in areas-${DAY}.csv`);
    const stops = sample('stops.csv').replace('356615', 'x');
    assert.deepEqual(said(run(TRIPS + EVENING, { areas, stops })), [
        "stops.csv:22: x_m 'x': not a whole number from 0 to 1000000",
    ]);
});

test('what the library refuses in the second edition is told by the line of its own file', () => {
    const [areas, given] = both().areas;
    const wrong = file(`areas-${DAY}.csv`, AREAS.replace('25,00;3,00', '25,00;6,00')); // a flat above the state's
    assert.match(said(two(EVENING, { areas: [areas, wrong] }))[0], /^areas-2026-06-01\.csv:4: .* refused here \(3\)/);
    const [head] = sample('areas.csv').split('\n');
    const stops = [file('stops.csv', 'id;name;area;x_m;y_m\n'), both().stops[1]];
    const none = said(run(TRIPS, { areas: [file('areas.csv', head), given], stops }));
    assert.match(none[0], /^areas\.csv:1: the tariff is refused here \(2\)/);
});

// ---- The files' names

test('which file is of which edition', () => {
    const days = (...names) => names.map(dayInName);
    assert.deepEqual(days('areas.csv', 'Gebiete.xlsx', 'Stops 2026.CSV', 'new/areas.csv'), [null, null, null, null]);
    assert.deepEqual(days(`areas-${DAY}.csv`, `x-1/stops-${DAY}.xlsx`, `Tarif ${DAY}.csv`), [DAY, DAY, DAY]);
    assert.deepEqual(days('areas-juni.csv', 'stops-2026-6-1.csv'), ['juni', '2026-6-1']);
});

const told = (files) => said(run(TRIPS, { ...both(), ...files }));

test('a third date, a date that is none, and dated stops without dated areas are mistakes', () => {
    const { areas, stops } = both();
    const more = (list, name) => [...list, file(name, 'x')];
    assert.deepEqual(told({ areas: more(areas, 'areas-2027-01-01.csv') }), [
        'areas-2027-01-01.csv:1: a third day: the tariff has an edition from 1 Jan 2000 and one from 1 Jun 2026, ' +
            'and more than two editions are not allowed',
    ]);
    for (const day of ['2026-02-30', '2026-6-1', '1999-12-31', '2000-01-01', '2100-01-01', 'juni']) {
        const [wrong, ...rest] = told({ areas: [areas[0], file(`areas-${day}.csv`, AREAS)], stops: stops[0] });
        assert.ok(wrong.startsWith(`areas-${day}.csv:1: '${day}' in the file's name is no day from 2000-01-02 on; `));
        assert.deepEqual(rest, []);
    }
    const alone = said(run(TRIPS, { areas: areas[0], stops }));
    assert.deepEqual(alone, [
        `stops-${DAY}.csv:1: these stops need areas of the same day, areas-${DAY}.csv, which are missing`,
    ]);
    const other = told({ stops: [stops[0], file('stops-2026-07-01.csv', STOPS)] });
    assert.match(other.at(-1), /^stops-2026-07-01\.csv:1: these stops need areas of the same day, areas-2026-07-01/);
});

test('two files of one edition are a mistake, and so is a second one without the first', () => {
    const { areas } = both();
    const undated = told({ areas: [areas[0], file('Gebiete.csv', AREAS)] });
    assert.match(undated[0], /^Gebiete\.csv:1: beside areas\.csv another file without a day in its name; /);
    assert.deepEqual(told({ areas: [...areas, file(`Tarif-${DAY}.csv`, AREAS)] }), [
        `Tarif-${DAY}.csv:1: two files for the edition from 1 Jun 2026: areas-${DAY}.csv is the other one`,
    ]);
    assert.equal(told({ areas: areas[1] })[0], 'areas.csv:1: the file is missing');
    const mistakes = new Mistakes('de', []);
    assert.deepEqual(editionFiles(both(), mistakes).map(({ from, stops }) => [from, stops.name]), [
        ['2000-01-01', 'stops.csv'],
        [DAY, `stops-${DAY}.csv`],
    ]);
    assert.equal(mistakes.count('error'), 0);
});

// ---- Which edition

test('in force is the last edition that is valid by then; 24 hours on a window of the one before may be open', () => {
    const [one, other] = [{ since: 0 }, { since: 5000 }];
    assert.deepEqual([0, 4999, 5000, 9999].map((minute) => inForce([one, other], minute)), [one, one, other, other]);
    const possible = [4999, 5000, 6439, 6440].map((minute) => possibleAt([one, other], minute));
    assert.deepEqual(possible, [[one], [one, other], [one, other], [other]]);
});

test('the night over the change: the book decides while its window is open, else the check-in', () => {
    const result = two(EVENING + MORNING + LATER);
    assert.deepEqual([said(result), editions(result)], [[], [1, 1, 2]]);
    const windows = result.members[0].windows.map(({ edition, entries }) => [edition, entries.length]);
    assert.deepEqual(windows, [[1, 2], [2, 1]]);
    assert.deepEqual(cents(result), [...cents(first(EVENING + MORNING)), ...cents(second(LATER))]);
    assert.deepEqual([editions(two(MORNING)), cents(two(MORNING))], [[2], cents(second(MORNING))]);
    assert.notDeepEqual(cents(first(MORNING)), cents(second(MORNING)));
});

test("a day begins at its first minute in UTC: at two o'clock in summer", () => {
    const at = (times) => editions(two(trip('Anna', '2026-06-01', times, 'Aachen Hbf', 'Düren Bf')));
    assert.deepEqual([at('01:59,02:40'), at('02:00,02:40')], [[1], [2]]);
});

test('a window that is open to its last minute, and the trip that ends a minute later', () => {
    const opened = trip('Anna', '2026-06-01', '01:59,02:40', 'Aachen Hbf', 'Düren Bf');
    const back = (arrive) => trip('Anna', '2026-06-02', `01:30,${arrive}`, 'Düren Bf', 'Aachen Hbf');
    const until = (arrive) => editions(two(opened + back(arrive)));
    assert.deepEqual([until('01:59'), until('02:00')], [[1, 1], [1, 2]]);
});

test('from books the same edition goes on, in whose window the trips are', () => {
    const books = booksText(two(EVENING + MORNING, { period: '2026-05' }));
    assert.deepEqual(JSON.parse(books).members[0].words.at(-1), [1367, 1]);
    const june = two(MORNING + LATER, { period: '2026-06', books });
    assert.deepEqual([said(june), editions(june)], [[], [1, 2]]);
    assert.deepEqual(cents(june), cents(two(EVENING + MORNING + LATER)).slice(1));
});

test("a book that says another edition than names were read in is an error, and nothing is put out", () => {
    const open = (...slices) => {
        const account = engine.open(...slices);
        const settle = (entry) => {
            const answer = account.settle(entry);
            account.view().setUint32(4 * 1367, 2, true);
            return answer;
        };
        return { ...account, settle };
    };
    const result = two(EVENING, { engine: { ...engine, open } });
    assert.match(said(result)[0], /^trips\.csv:1: the sums of 'Anna' do not agree .* \(edition, trips\.csv:2\)/);
    assert.deepEqual([result.members, result.wages, result.charges, result.books.size], [[], [], [], 0]);
});

// ---- Stops that one edition has

const SETTERICH =
    "from 'Baesweiler Setterich': only the tariff's edition to 31 May 2026 has this stop (stops.csv), " +
    'and the trip is priced by the edition from 1 Jun 2026';
const JUELICH =
    `via 'Jülich Bf': only the tariff's edition from 1 Jun 2026 has this stop (stops-${DAY}.csv), ` +
    'and the trip is priced by the edition to 31 May 2026';

test('a stop that only the other edition has is a mistake that says which', () => {
    const gone = (date) => trip('Anna', date, '08:00,08:30', 'Baesweiler Setterich', 'Düren Bf');
    const early = (date) => trip('Anna', date, '08:00,08:30', 'Aachen Hbf', 'Düren Bf', 'Jülich Bf,,,,,');
    assert.deepEqual(said(two(gone('2026-05-20') + early('2026-06-20'))), []);
    assert.deepEqual(said(two(gone('2026-06-20') + early('2026-05-20'))), [
        `trips.csv:2: ${SETTERICH}`,
        `trips.csv:3: ${JUELICH}`,
    ]);
    const [german] = said(two(gone('2026-06-20'), { language: 'de' }));
    assert.match(german, /hat nur die Fassung des Tarifs bis 31\.05\.2026 \(stops\.csv\), .* Fassung ab 01\.06\.2026/);
    const unknown = trip('Anna', '2026-06-01', '08:00,08:30', 'Juelich Bf', 'Düren Bf');
    assert.deepEqual(said(two(unknown)), ["trips.csv:2: from 'Juelich Bf': no such stop; did you mean 'Jülich Bf'?"]);
});

test('in the first 24 hours the window decides, and all such mistakes of all members are told', () => {
    const gone = (member) => trip(member, '2026-06-01', '08:00,08:30', 'Baesweiler Setterich', 'Düren Bf');
    const early = trip('Anna', '2026-06-01', '09:00,09:30', 'Aachen Hbf', 'Düren Bf', 'Jülich Bf,,,,,');
    assert.deepEqual(said(two(EVENING + gone('Anna'))), []);
    const wrong = said(two(EVENING + early + gone('Cem')));
    assert.deepEqual(wrong, [`trips.csv:3: ${JUELICH}`, `trips.csv:4: ${SETTERICH}`]);
    assert.deepEqual(two(EVENING + early).wages, []);
    assert.deepEqual(editions(two(early)), [2]);
});

test('a trip that is there twice is told, and none that has other stops', () => {
    const ride = (from, to) => trip('Anna', '2026-06-01', '08:00,08:00', from, to);
    const { stops } = both();
    const fewer = [stops[0], file(stops[1].name, STOPS.replace(/^bw-rey.*\n/m, ''))];
    const rides = ride('Baesweiler Setterich', 'Düren Bf') + ride('Baesweiler Reyplatz', 'Düren Bf');
    assert.deepEqual(said(two(EVENING + rides, { stops: fewer })), []);
    const again = ride('bw-set', 'Düren Bf');
    assert.deepEqual(said(two(EVENING + rides + again, { stops: fewer })), [
        'trips.csv:5: warning: the same trip as in line 3; entered twice?',
    ]);
});

test('a name that one edition has twice is told where that edition settles the trip', () => {
    const { stops } = both();
    const twice = [stops[0], file(stops[1].name, STOPS.replace('Jülich Bf', 'Aachen Hbf'))];
    const aachen = (date) => trip('Anna', date, '08:00,08:30', 'Aachen Hbf', 'Düren Bf');
    assert.deepEqual(said(two(aachen('2026-05-20') + aachen('2026-06-20'), { stops: twice })), [
        "trips.csv:3: from 'Aachen Hbf': several stops have this name; write jue-bf or ac-hbf",
    ]);
});

// ---- Statements

test("statements name each window's edition, and areas and caps are that edition's", () => {
    const back = trip('Anna', '2026-06-02', '15:00,16:50', 'Düren Bf', 'Aachen Hbf', ',1,D,,,');
    const result = two(EVENING + MORNING + LATER + back);
    const [german, english] = ['de', 'en'].map((language) => statementText(result.members[0], result, language));
    assert.match(german, /22:40\n-+\nTarif NRW, Fassung bis 31\.05\.2026\n/);
    assert.match(german, /05:30\n-+\nTarif NRW, Fassung ab 01\.06\.2026\n/);
    assert.match(english, /\nTariff NRW, edition to 31 May 2026\n[^]*\nTariff NRW, edition from 1 Jun 2026\n/);
    const [may, june] = german.split('Fassung ab 01.06.2026\n');
    assert.match(may, /2\. Klasse · Aachen \(AVV\), \d+ km/);
    assert.doesNotMatch(may, /Rheinland/);
    assert.match(june, /2\. Klasse · Rheinland, \d+ km/);
    assert.match(june, /Mitglied: Rheinland, 2\. Klasse +[\d,]+ € von 26,00 €/);
    const foot = 'Tarif NRW, Fassung bis 31.05.2026: 10 Gebiete, 29 Haltestellen\n' +
        'Tarif NRW, Fassung ab 01.06.2026: 8 Gebiete, 29 Haltestellen\n' +
        `Prüfsumme des Tarifs: ${result.tariff.hash}\n`;
    assert.ok(german.includes(foot), german);
    const html = statementHtml(result.members[0], result, 'de');
    const notes = [...html.matchAll(/<p class="note">([^<]*)/g)].map(([, note]) => note);
    assert.deepEqual(notes, ['Tarif NRW, Fassung bis 31.05.2026', 'Tarif NRW, Fassung ab 01.06.2026']);
    assert.doesNotMatch(statementText(first(EVENING).members[0], first(EVENING), 'de'), /Fassung/);
});

test('in the charges, too, areas, stops and caps are those of the edition that settled the trip', () => {
    const far = (times) => trip('Anna', '2026-06-20', times, 'Aachen Hbf', 'Düren Bf', ',1,,,,');
    const rides = ['05:00,06:00', '07:00,08:00', '09:00,10:00', '11:00,12:00'].map(far).join('');
    const rows = (result) => JSON.parse(chargesText(result, 'json', 'en'));
    const result = two(EVENING + rides);
    assert.deepEqual(rows(result).slice(1).map(({ area }) => area), Array(4).fill('Rheinland'));
    assert.deepEqual(rows(result).slice(1), rows(second(rides)).map((row) => ({ ...row, line: row.line + 1 })));
    assert.ok(rows(result).some((row) => row.cap_area === 'Rheinland'));
});

// ---- Books

/** Books as they were written before there were editions. */
function beforeEditions(text) {
    const { editions: [{ from, ...only }], members, ...rest } = JSON.parse(text);
    const own = members.map((member) => ({ ...member, words: member.words.filter(([at]) => at !== 1367) }));
    return JSON.stringify({ ...rest, form: 'milecopper books 2', ...only, members: own });
}

test('books keep for each edition what they know it by', () => {
    const { editions: own, members } = JSON.parse(booksText(two(EVENING + MORNING + LATER, { period: '2026-06' })));
    assert.deepEqual(own.map(({ from, areas }) => [from, areas]), [['2000-01-01', 10], [DAY, 8]]);
    const alone = [first(LATER), second(LATER)].map(({ tariff }) => tariff.editions[0]);
    const hashes = alone.map(({ hash, values }) => [hash, values]);
    assert.deepEqual(own.map(({ tariff, values }) => [tariff, values]), hashes);
    assert.deepEqual(own.map(({ stops }) => stops['Jülich Bf']), [undefined, 'jue-bf']);
    assert.deepEqual(members[0].trips.map(({ edition }) => edition), [undefined, undefined, 2]);
});

test('an edition that is added loses no books, in whatever form they are', () => {
    const text = booksText(first(EVENING, { period: '2026-05' }));
    const { tariff } = JSON.parse(text).editions[0];
    const { period, members: [{ trips, ...anna }] } = JSON.parse(beforeEditions(text));
    const oldest = JSON.stringify({ form: 'milecopper books 1', tariff, period, members: [anna] });
    for (const books of [text, beforeEditions(text), oldest]) {
        const june = two(MORNING + LATER, { period: '2026-06', books });
        assert.deepEqual([said(june), editions(june)], [[], [1, 2]]);
        assert.deepEqual(cents(june), cents(two(EVENING + MORNING + LATER)).slice(1));
    }
});

test('an edition that is added after its months were closed is told', () => {
    const books = booksText(first(EVENING + LATER, { period: '2026-06' }));
    const july = trip('Anna', '2026-07-02', '05:30,06:45', 'Aachen Hbf', 'Düren Bf');
    assert.deepEqual(said(two(EVENING + LATER + july, { books, period: '2026-07' })), [
        "books:1: warning: the tariff's edition from 1 Jun 2026 was not there yet when June 2026 was closed: all " +
            'trips up to then are priced by the edition before it',
    ]);
});

/** The areas of both editions, with a change in those of one. */
function areasWith(number, old, now) {
    return both().areas.map((own, i) => {
        return i + 1 === number ? file(own.name, new TextDecoder().decode(own.bytes).replace(old, now)) : own;
    });
}

test('an edition that was changed is told as a changed tariff is', () => {
    const books = booksText(two(EVENING + LATER, { period: '2026-06' }));
    const july = trip('Anna', '2026-07-02', '05:30,06:45', 'Aachen Hbf', 'Düren Bf');
    const then = (files, options = {}) => said(two(july, { books, period: '2026-07', ...files, ...options }));
    const { areas, stops } = both();
    assert.deepEqual(then({}), []);
    for (const number of [1, 2]) {
        const changed = { areas: areasWith(number, 'NRW;1;state;;1,80', 'NRW;1;state;;1,90') };
        assert.match(then(changed)[0], /^books:1: since the closing areas have other prices or caps/);
        assert.match(then(changed, { newTariff: true })[0], /^books:1: warning: a new tariff: /);
        assert.equal(then(changed).length, 1);
    }
    const other = [file('areas-2026-06-02.csv', AREAS), file('stops-2026-06-02.csv', STOPS)];
    const [later] = then({ areas: [areas[0], other[0]], stops: [stops[0], other[1]] });
    assert.match(later, /^books:1: since the closing .*, or the second edition has another day\. If that is meant: /);
    const lines = AREAS.trimEnd().split('\n');
    const moved = [...lines.slice(0, 4), lines[5], lines[4], ...lines.slice(6)].join('\n');
    const [useless] = then({ areas: [areas[0], file(`areas-${DAY}.csv`, moved)] });
    assert.match(useless, /^books:1: the books belong to another tariff: .* their place in areas-2026-06-01\.csv; new/);
});

test('so is an edition that was dropped', () => {
    const books = booksText(two(EVENING + LATER, { period: '2026-06' }));
    const july = trip('Anna', '2026-07-02', '05:30,06:45', 'Aachen Hbf', 'Düren Bf');
    const gone = [
        'books:1: the books belong to another tariff: they also know an edition from 1 Jun 2026, which is missing ' +
            `(areas-${DAY}.csv)`,
    ];
    assert.deepEqual(said(first(july, { books, period: '2026-07' })), gone);
    assert.deepEqual(said(second(july, { books, period: '2026-07' })), gone);
    const before = booksText(first(EVENING, { period: '2026-05' })); // these know the first alone
    const [useless] = said(second(LATER, { books: before, period: '2026-06' }));
    assert.match(useless, /^books:1: the books belong to another tariff: since/);
});

test('windows that are open under a changed edition are those that are told', () => {
    const late = (member) => trip(member, '2026-06-30', '22:40,23:55', 'Aachen Hbf', 'Düren Bf');
    const books = booksText(two(EVENING + late('Cem'), { period: '2026-06' }));
    const july = trip('Cem', '2026-07-01', '05:30,06:45', 'Aachen Hbf', 'Düren Bf');
    const then = (number) => {
        const areas = areasWith(number, '25,00;3,00', '24,00;3,00');
        return said(two(july, { books, period: '2026-07', newTariff: true, areas }))[0];
    };
    assert.match(then(1), /so nothing mixes$/);
    assert.match(then(2), /old tariff: Cem$/);
});

test('a closed trip is known again under the edition that settled it, and a changed one is told', () => {
    const books = booksText(two(EVENING + MORNING + LATER, { period: '2026-06' }));
    const july = trip('Anna', '2026-07-02', '05:30,06:45', 'Aachen Hbf', 'Düren Bf');
    const then = (trips) => said(two(trips + july, { books, period: '2026-07' }));
    assert.deepEqual(then(EVENING + MORNING + LATER), []);
    const [changed] = then(EVENING + MORNING + LATER.replace('Düren Bf', 'Köln Hbf'));
    assert.match(changed, /^trips\.csv:4: .*late or changed/);
    const { stops } = both();
    const renamed = [stops[0], file(stops[1].name, STOPS.replaceAll('ac-hbf', 'aachen').replaceAll('dn-bf', 'dueren'))];
    const all = EVENING + MORNING + LATER;
    const other = booksText(two(all, { period: '2026-06', stops: renamed }));
    assert.deepEqual(said(two(all + july, { books: other, period: '2026-07', stops: renamed })), []);
});

test('books whose editions are damaged are not books', () => {
    const books = booksText(two(EVENING + LATER, { period: '2026-06' }));
    const july = trip('Anna', '2026-07-02', '05:30,06:45', 'Aachen Hbf', 'Düren Bf');
    const days = [`"from":"${DAY}">"from":"2026-13-01"`, '"from":"2000-01-01">"from":"2000-01-02"'];
    for (const change of [...days, '"areas":8>"areas":0', '"edition":2>"edition":3', '"structure":">"structure":"x']) {
        const [old, now] = change.split('>');
        assert.ok(books.includes(old), old);
        const result = said(two(july, { books: books.replace(old, now), period: '2026-07' }));
        assert.deepEqual(result, ['books:1: these are not books as they are written when a month is closed'], change);
    }
    const unsound = said(two(july, { books: books.replace('[1367,2]', '[1367,3]'), period: '2026-07' }));
    assert.deepEqual(unsound, ["books:1: the book of 'Anna' is damaged (4)"]);
});

// ---- The command

let room;
before(() => {
    room = fs.mkdtempSync(path.join(os.tmpdir(), 'editions-'));
});
after(() => fs.rmSync(room, { recursive: true }));

function called(...words) {
    const { status, stdout, stderr } = spawnSync(path.join(ROOT, 'milecopper'), words, { cwd: room, encoding: 'utf8' });
    return { status, out: stdout, told: stderr };
}

/** A folder with these files, and those of the first edition. */
function folder(name, files) {
    const place = path.join(room, name);
    fs.mkdirSync(place);
    const all = { 'areas.csv': sample('areas.csv'), 'stops.csv': sample('stops.csv'), ...files };
    for (const [own, content] of Object.entries(all)) fs.writeFileSync(path.join(place, own), content);
    return place;
}


test('the command takes both editions from the folder, or by --areas and --stops twice', () => {
    const trips = TRIPS + EVENING + MORNING + LATER;
    const due = wagesText(two(EVENING + MORNING + LATER), 'csv', 'en');
    const place = folder('both', { [`areas-${DAY}.csv`]: AREAS, [`stops-${DAY}.csv`]: STOPS, 'trips.csv': trips });
    assert.deepEqual(called('wages', place, '--language', 'en'), { status: 0, out: due, told: '' });
    const old = folder('old', { 'trips.csv': trips });
    fs.mkdirSync(path.join(room, 'new'));
    const [areas, stops] = [`new/Gebiete-${DAY}.csv`, `new/Halte-${DAY}.csv`];
    fs.writeFileSync(path.join(room, areas), AREAS);
    fs.writeFileSync(path.join(room, stops), STOPS);
    const given = ['--areas', path.join(old, 'areas.csv'), '--stops', path.join(old, 'stops.csv'), '--language', 'en'];
    const named = called('wages', old, ...given, '--areas', areas, '--stops', stops);
    assert.deepEqual(named, { status: 0, out: due, told: '' });
    const none = called('wages', old, ...given, '--areas', path.join(place, 'areas.csv'));
    assert.equal(none.status, 2);
    assert.match(none.told, /areas\.csv:1: beside .*areas\.csv another file without a day in its name/);
    const third = folder('third', { [`areas-${DAY}.csv`]: AREAS, 'areas-2026-02-30.csv': AREAS, 'trips.csv': trips });
    const wrong = called('check', third, '--language', 'en');
    assert.match(wrong.out, /^areas-2026-02-30\.csv:1: '2026-02-30' in the file's name is no day/m);
});
