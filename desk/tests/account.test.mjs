import assert from 'node:assert/strict';
import { test } from 'node:test';
import { booksText } from '../books.mjs';
import { chargesText, wagesText } from '../wages.mjs';
import { TRIPS, engine, run, said, sample } from './support.mjs';

const EVENING = 'Anna Berg,2026-10-31,22:40,23:55,Münster Hbf,Bielefeld Hbf,,,,,,\n';
const MORNING = 'Anna Berg,2026-11-01,05:30,06:45,Bielefeld Hbf,Münster Hbf,,,,,,\n';
const cents = (result) => result.members.flatMap(({ entries }) => entries.map((entry) => entry.cents));
const sum = (numbers) => numbers.reduce((all, number) => all + number, 0);
const wages = (result) => result.wages.map((row) => [row.member, row.period, row.trips, row.refused, row.cents]);

test("a night over the month's end is one window: 25.00, and not 36.82 as of two months apart", () => {
    const apart = [EVENING, MORNING].map((trip) => sum(cents(run(TRIPS + trip))));
    assert.deepEqual([apart, sum(apart)], [[1841, 1841], 3682]);

    const october = run(TRIPS + EVENING + MORNING, { period: '2026-10' });
    const november = run(TRIPS + EVENING + MORNING, { period: '2026-11' });
    assert.deepEqual(
        [wages(october), wages(november)],
        [[['Anna Berg', '2026-10', 1, 0, 1841]], [['Anna Berg', '2026-11', 1, 0, 659]]],
    );
    const { windows } = november.members[0];
    assert.deepEqual(windows.map(({ entries }) => entries.map(({ inPeriod }) => inPeriod)), [[false, true]]);
    assert.deepEqual(windows[0].openingLocal.local, '2026-10-31T22:40');
    const cap = november.members[0].entries[1].parts[0].riders[0];
    assert.deepEqual([cap.price, cap.charge, cap.off, cap.cap], [1841, 659, 1182, { area: 1, class: 2 }]);
    assert.deepEqual(windows[0].sums, [
        { sort: 'holder', number: 1, areas: [0, 1].map((area) => ({ area, second: 2500, all: 2500 })) },
    ]);
});

test('so it is from the books of the closed month, whether the file still has its trips or not', () => {
    const books = booksText(run(TRIPS + EVENING + MORNING, { period: '2026-10' }));
    for (const trips of [MORNING, EVENING + MORNING]) {
        const november = run(TRIPS + trips, { period: '2026-11', books });
        assert.deepEqual(wages(november), [['Anna Berg', '2026-11', 1, 0, 659]]);
        assert.equal(november.members[0].windows[0].openingLocal.local, '2026-10-31T22:40');
    }
    assert.deepEqual(said(run(TRIPS + EVENING + MORNING, { books })), []);
    const words = (result) => JSON.parse(booksText(result)).members[0].words;
    assert.deepEqual(
        words(run(TRIPS + MORNING, { period: '2026-11', books })),
        words(run(TRIPS + EVENING + MORNING, { period: '2026-11' })),
    );
});

test('books of a closed month, of another form or damaged are errors', () => {
    const books = booksText(run(TRIPS + EVENING, { period: '2026-10' }));
    assert.deepEqual(said(run(TRIPS + EVENING, { books, period: '2026-10' })), [
        'books:1: the books are closed to 2026-10 already, and 2026-10 is asked for',
    ]);
    const others = [books.slice(0, -9), books.replace('[1,', '[1.5,'), books.replace('2026-10', '2026-13')];
    for (const text of ['', '{}', '[]', ...others]) {
        assert.deepEqual(
            said(run(TRIPS + MORNING, { books: text })),
            ['books:1: these are not books as they are written when a month is closed'],
        );
    }
    const [first] = books.match(/\[1,\d+\]/);
    assert.deepEqual(
        said(run(TRIPS + MORNING, { books: books.replace(first, '[1,1]') })),
        ["books:1: the book of 'Anna Berg' is damaged (4)"],
    );
});

test("a trip that begins before the books' last check-out, and a member spelt otherwise than there", () => {
    const late = EVENING.replace('22:40,23:55', '23:40,00:55');
    const books = booksText(run(TRIPS + late, { period: '2026-10' }));
    const early = 'Anna Berg,2026-11-01,00:30,01:45,Bielefeld Hbf,Münster Hbf,,,,,,\n';
    assert.deepEqual(said(run(TRIPS + early + MORNING.replace('Anna Berg', 'ANNA BERG'), { books })), [
        'trips.csv:2: warning: begins before the last check-out in the books (2026-11-01 00:55); refused (10)',
        "trips.csv:3: warning: member 'ANNA BERG': the same person as 'Anna Berg' in line 2? They count as two",
        "trips.csv:3: warning: member 'ANNA BERG': the same person as 'Anna Berg' in the books? They count as two",
    ]);
});

test('members without trips keep their books', () => {
    const books = booksText(run(TRIPS + EVENING, { period: '2026-10' }));
    const next = run(TRIPS + MORNING.replace('Anna Berg', 'Cem'), { period: '2026-11', books });
    assert.deepEqual([...next.books.keys()], ['Anna Berg', 'Cem']);
    const anna = (text) => JSON.parse(text).members[0].words;
    assert.deepEqual(anna(booksText(next)), anna(books));
});

test('two members in one file have windows and caps of their own, in whatever order the lines stand', () => {
    const lines = [EVENING, MORNING, EVENING.replace('Anna Berg', 'Cem'), MORNING.replace('Anna Berg', 'Cem')];
    const due = [['Anna Berg', '2026-10', 1, 0, 1841], ['Anna Berg', '2026-11', 1, 0, 659]];
    const all = [...due, ...due.map(([, ...rest]) => ['Cem', ...rest])];
    for (const order of [[0, 1, 2, 3], [3, 0, 2, 1], [1, 3, 0, 2], [3, 2, 1, 0]]) {
        const result = run(TRIPS + order.map((i) => lines[i]).join(''));
        assert.deepEqual(wages(result).sort(), all);
        assert.deepEqual(said(result), []);
    }
});

test('trips at the same minute are taken by line', () => {
    const tap = 'Anna Berg,2026-10-05,08:00,08:00,Hamm Hbf,Hamm Betriebshof,,,,,,\n';
    const result = run(TRIPS + EVENING + tap + tap.replace('08:00,Hamm Hbf', '08:30,Hamm Hbf'));
    assert.deepEqual(
        result.members[0].entries.map(({ line, accepted }) => [line, accepted]),
        [[3, true], [4, true], [2, true]],
    );
});

test('the October night: twenty minutes, one window, and the hours told apart', () => {
    const result = run(`${TRIPS}A,2026-10-25,02:50,02:10,Bielefeld Hbf,Bielefeld Brackwede,,,,,,
A,2026-10-25,02:20+01:00,02:40+01:00,Bielefeld Brackwede,Bielefeld Hbf,,,,,,
A,2026-10-26,01:30,01:50,Bielefeld Hbf,Bielefeld Brackwede,,,,,,
A,2026-10-26,01:50,01:51,Bielefeld Brackwede,Bielefeld Hbf,,,,,,
`);
    assert.deepEqual(said(result), []);
    const { entries, windows } = result.members[0];
    assert.deepEqual(entries.map(({ parts }) => parts[0].minutes), [20, 20, 20, 1]);
    assert.deepEqual(entries[0].checkIn, { minute: 14103410, local: '2026-10-25T02:50', offset: '+02:00' });
    assert.deepEqual(entries[0].checkOut, { minute: 14103430, local: '2026-10-25T02:10', offset: '+01:00' });
    // 24 hours from 02:50 summer time are over at 01:50
    assert.deepEqual(
        windows.map((window) => window.entries.length),
        [3, 1],
    );
    assert.deepEqual(entries.map((entry) => entry.cents), [230, 230, 90, 230]);
});

test('the March night: twenty minutes over the gap', () => {
    const result = run(`${TRIPS}A,2026-03-29,01:50,03:10,Bielefeld Hbf,Bielefeld Brackwede,,,,,,\n`);
    const [entry] = result.members[0].entries;
    assert.deepEqual(
        [entry.parts[0].minutes, entry.cents, entry.checkIn.offset, entry.checkOut.offset],
        [20, 230, '+01:00', '+02:00'],
    );
});

test('an out-and-back ride has two parts, and a refused trip stands in its place', () => {
    const result = run(`${TRIPS}A,2026-10-20,17:30,19:05,Dortmund Hbf,Dortmund Hbf,Duisburg Hbf,,,,,
A,2026-10-20,18:00,19:30,Dortmund Hbf,Essen Hbf,,,,,,
A,2026-10-22,10:00,34:01,Dortmund Hbf,Essen Hbf,,,,,,
A,2026-10-25,05:00,05:30,Dortmund Hbf,Essen Hbf,,,,,,
`);
    const { entries, windows } = result.members[0];
    assert.deepEqual(
        entries[0].parts.map(({ km, minutes, riders }) => [km, minutes, riders[0].charge]),
        [[49, 95, 1594], [49, 0, 1296]],
    );
    assert.deepEqual(entries.map(({ refusal }) => refusal?.number), [undefined, 10, 9, undefined]);
    assert.deepEqual(
        windows.map(({ opening, entries: own }) => [opening !== null, own.length]),
        [[true, 2], [false, 1], [true, 1]],
    );
    assert.deepEqual(wages(result), [['A', '2026-10', 2, 2, 2890 + entries[3].cents]]);
});

test('without a period each month has its row; the month is that of the check-in by local date', () => {
    const over = 'A,2026-10-31,23:50,00:21,Hamm Hbf,Hamm Betriebshof,,,,,,\n';
    assert.deepEqual(wages(run(TRIPS + over)), [['A', '2026-10', 1, 0, 200]]);
    assert.deepEqual(
        wages(run(`${TRIPS}${over.replace('2026-10-31,23:50,00:21', '2026-11-01,00:10,00:21')}`)),
        [['A', '2026-11', 1, 0, 200]],
    );
});

test('tables as CSV in both languages and as JSON', () => {
    const result = run(TRIPS + EVENING + MORNING.replace(',,,,,,', ',,1,,,1,1'), { period: '2026-11' });
    assert.equal(wagesText(result, 'csv', 'en'), 'member,period,trips,refused,amount\nAnna Berg,2026-11,1,0,35.90\n');
    assert.equal(
        wagesText(result, 'csv', 'de'),
        '\uFEFFmember;period;trips;refused;amount\nAnna Berg;2026-11;1;0;35,90\n',
    );
    assert.deepEqual(
        JSON.parse(wagesText(result, 'json', 'de')),
        [{ member: 'Anna Berg', period: '2026-11', trips: 1, refused: 0, cents: 3590 }],
    );
    const rows = JSON.parse(chargesText(result, 'json', 'de'));
    const shown = ['rider', 'price', 'charge', 'taken_off', 'cap_area', 'cap_class'];
    assert.deepEqual(rows.map((row) => shown.map((column) => row[column])), [
        ['holder', 2762, 1909, 853, 'Westfalen', 1],
        ['child 1', 1381, 1381, 0, null, null],
        ['bicycle 1', null, 300, null, null, null],
    ]);
    const [head, row] = chargesText(result, 'csv', 'en').split('\n');
    assert.equal(
        head,
        'member,line,check_in,check_out,from,to,via,class,level,part,area,km,minutes,window,' +
            'rider,price,charge,taken_off,cap_area,cap_class,refusal',
    );
    assert.equal(
        row,
        'Anna Berg,3,2026-11-01T05:30+01:00,2026-11-01T06:45+01:00,Bielefeld Hbf,Münster Hbf,,1,,1,Westfalen,63,75,' +
            '2026-10-31T22:40+01:00,holder,27.62,19.09,8.53,Westfalen,1,',
    );
});

// What the desk adds up is compared with the book's words: a library that kept another book would be found out.
test('names that a spreadsheet would run as formulas are harmless in every column of every table', () => {
    const signs = { Westfalen: '=Westfalen', 'Münster Hbf': '@Münster Hbf', 'Anna Berg': '-Anna Berg' };
    const evil = (text) => text.replace(/Westfalen|Münster Hbf|Anna Berg/g, (name) => signs[name]);
    const named = (name, trips) => ({ name, bytes: new TextEncoder().encode(evil(TRIPS + trips)) });
    const trips = [named('=one.csv', MORNING.replace('Hbf,,', 'Hbf,Münster Hbf,')), named('two.csv', EVENING)];
    const tariff = { areas: evil(sample('areas.csv')), stops: evil(sample('stops.csv')) };
    const result = run(trips, { ...tariff, members: evil('number;name\n+7;Anna Berg\n') });
    assert.deepEqual(said(result), []);
    for (const language of ['de', 'en']) {
        const tables = [wagesText(result, 'csv', language), chargesText(result, 'csv', language)];
        for (const cell of tables.flatMap((table) => table.replace('\uFEFF', '').split(/[;,\n]/))) {
            assert.doesNotMatch(cell, /^[=+@\t\r]|^-(?!\d)/, cell);
        }
        assert.match(tables[0], /'-Anna Berg.*'\+7$/m);
        assert.match(tables[1], /^'=one\.csv.*'-Anna Berg.*'@Münster Hbf.*'@Münster Hbf.*'=Westfalen/m);
    }
});

test('sums that do not agree with the book are an error, and nothing is put out', () => {
    const word = (at, by) => (view) => view.setUint32(4 * at, view.getUint32(4 * at, true) + by, true);
    const window = { opening: word(1, 1), 'check-out': word(2, 1), edition: word(1367, 1) };
    const party = { 'holder 1': word(4, 1), 'adult 1': word(68, 1), 'bicycle 1': word(1357, 5) };
    for (const [what, change] of Object.entries({ ...window, ...party })) {
        const open = (...slices) => {
            const account = engine.open(...slices);
            const settle = (trip) => {
                const answer = account.settle(trip);
                change(account.view());
                return answer;
            };
            return { ...account, settle };
        };
        const result = run(TRIPS + EVENING.replace(',,,,,,', ',,,,1,,1'), { engine: { ...engine, open } });
        assert.equal(result.errors, 1, what);
        const due = `^trips.csv:1: the sums of 'Anna Berg' do not agree with the book \\(${what}, trips\\.csv:2`;
        assert.match(said(result)[0], new RegExp(due));
        assert.deepEqual([result.members, result.wages, result.charges, result.books.size], [[], [], [], 0]);
    }
});
