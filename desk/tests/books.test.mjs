// Months and books: which month is open, which books count, what they keep, and under which tariff they go on.
import assert from 'node:assert/strict';
import { test } from 'node:test';
import { booksText } from '../books.mjs';
import { monthsOf, openMonth } from '../months.mjs';
import { statementText } from '../statement.mjs';
import { TRIPS, run, said, sample } from './support.mjs';

const EVENING = 'Anna Berg,2026-10-31,22:40,23:55,Münster Hbf,Bielefeld Hbf,,,,,,\n';
const MORNING = 'Anna Berg,2026-11-01,05:30,06:45,Bielefeld Hbf,Münster Hbf,,,,,,\n';
const PARTY = 'Cem,2026-10-04,08:05,09:20,Aachen Hbf,Baesweiler Reyplatz,Aachen West|Aachen Bushof,1,B,1,2,3\n';
const OVERLAP = 'Cem,2026-10-04,09:00,09:30,Baesweiler Reyplatz,Aachen Hbf,,,,,,\n';
const OCTOBER = PARTY + OVERLAP + EVENING;

const file = (name, text) => ({ name, bytes: new TextEncoder().encode(text) });
const closedOf = (trips, period, options = {}) => booksText(run(TRIPS + trips, { period, ...options }));
const cents = (result) => result.members.flatMap(({ entries }) => entries.map((entry) => entry.cents));

/** A member's book as it was before there were editions: without its last word. */
const olderBook = ({ words, ...member }) => ({ ...member, words: words.filter(([at]) => at !== 1367) });

/** The same books as they were written before there were editions. */
function beforeEditions(text) {
    const { editions: [{ from, ...only }], members, ...rest } = JSON.parse(text);
    return JSON.stringify({ ...rest, form: 'milecopper books 2', ...only, members: members.map(olderBook) });
}

/** The same books as version 0.13 wrote them: the hash of the whole tariff, and no trips. */
function older(text) {
    const { editions: [{ tariff }], period, members } = JSON.parse(text);
    const own = members.map(olderBook).map(({ member, words }) => ({ member, words }));
    return JSON.stringify({ form: 'milecopper books 1', tariff, period, members: own });
}

// ---- What books keep

test('books keep each trip of their month, with its stops in words and what it was charged', () => {
    const books = JSON.parse(closedOf(OCTOBER + MORNING, '2026-10'));
    assert.deepEqual([books.form, books.period, books.before], ['milecopper books 3', '2026-10', null]);
    const [anna, cem] = books.members; // by name
    assert.equal(cem.member, 'Cem');
    const { cents: charged, ...ride } = cem.trips[0];
    assert.deepEqual(ride, {
        ...{ in: '2026-10-04T08:05+02:00', out: '2026-10-04T09:20+02:00', class: 1, level: 'B', party: [1, 2, 3] },
        stops: ['Aachen Hbf', 'Aachen West', 'Aachen Bushof', 'Baesweiler Reyplatz'],
    });
    assert.equal(charged, run(TRIPS + PARTY).wages[0].cents);
    assert.equal(cem.trips[1].refused, 10);
    assert.deepEqual(anna.trips, [
        {
            ...{ in: '2026-10-31T22:40+01:00', out: '2026-10-31T23:55+01:00' },
            ...{ stops: ['Münster Hbf', 'Bielefeld Hbf'], cents: 1841 },
        },
    ]);
    assert.equal(books.editions[0].stops['Münster Hbf'], 'ms-hbf');
    const next = JSON.parse(closedOf(OCTOBER + MORNING, '2026-11', { books: JSON.stringify(books) }));
    assert.deepEqual([next.before, next.members.map(({ trips }) => trips.length)], ['2026-10', [1, 0]]);
});

test('a late trip of a closed month is named, with its line and what to do; what the books have is not told', () => {
    const books = closedOf(OCTOBER, '2026-10');
    assert.deepEqual(said(run(TRIPS + OCTOBER + MORNING, { books })), []);
    const late = 'Anna Berg,2026-10-14,12:00,12:30,Hamm Hbf,Hamm Betriebshof,,,,,,\n';
    const result = run(TRIPS + EVENING + late + MORNING, { books: [file('books-2026-10.json', books)] });
    assert.deepEqual(said(result), [
        "trips.csv:3: warning: 'Anna Berg', late or changed: the trip lies in October 2026, which is closed and " +
            "whose books (books-2026-10.json) do not have it so, and is not priced here. './milecopper correct' " +
            'prices it as a supplement',
    ]);
    assert.deepEqual(cents(result), [659]);
});

test('a kept trip is known by member, times, stops, class, level and party; one there twice is late once', () => {
    const books = closedOf(OCTOBER, '2026-10');
    const changes = ['Anna Berg>Anna', '22:40>22:41', '23:55>23:54', 'Münster Hbf>Hamm Hbf', ',,,,,,>,,1,,,,'];
    for (const change of [...changes, ',,,,,,>,,,B,,,', ',,,,,,>,,,,1,,', ',,,,,,>,,,,,,1']) {
        const [old, now] = change.split('>');
        const [told, ...more] = said(run(TRIPS + EVENING.replace(old, now) + MORNING, { books }));
        assert.match(told, /^trips\.csv:2: warning: 'Anna( Berg)?', late or changed/, change);
        assert.deepEqual(more, []);
    }
    assert.deepEqual(said(run(TRIPS + EVENING.replace('Münster Hbf', 'ms-hbf') + MORNING, { books })), []);
    const twice = said(run(TRIPS + EVENING + EVENING + MORNING, { books }));
    const late = twice.filter((text) => /late or changed/.test(text));
    assert.deepEqual(late.map((text) => text.split(' ')[0]), ['trips.csv:3:']);
});

test('kept trips are known by the ids of stops where a name was mended, and by names where an id is new', () => {
    const books = closedOf(OCTOBER, '2026-10');
    const renamed = sample('stops.csv').replace(';Münster Hbf;', ';Münster (Westf) Hbf;');
    const trips = (OCTOBER + MORNING).replaceAll('Münster Hbf', 'ms-hbf');
    assert.deepEqual(said(run(TRIPS + trips, { books, stops: renamed })), []);
    const stops = sample('stops.csv').replace('ms-hbf;', 'ms;');
    assert.deepEqual(said(run(TRIPS + OCTOBER + MORNING, { books, stops })), []);
});

test('of the older form of books only the count is told', () => {
    const books = older(closedOf(OCTOBER, '2026-10'));
    const late = 'Anna Berg,2026-10-14,12:00,12:30,Hamm Hbf,Hamm Betriebshof,,,,,,\n';
    assert.deepEqual(said(run(TRIPS + EVENING + late + MORNING, { books })), [
        'trips.csv:2: warning: closed up to and including 2026-10: trips up to then are in the books and are not priced again ' +
            '(trips: 2, the first here)',
    ]);
});

test("an older month's late trips are known where that month's books are given too, and else counted", () => {
    const september = EVENING.replace('2026-10-31', '2026-09-30');
    const late = 'Cem,2026-09-14,12:00,12:30,Hamm Hbf,Hamm Betriebshof,,,,,,\n';
    const first = file('books-2026-09.json', closedOf(september, '2026-09'));
    const second = file('books-2026-10.json', closedOf(september + EVENING, '2026-10', { books: first }));
    const trips = TRIPS + september + late + EVENING + MORNING;
    const [told, ...more] = said(run(trips, { books: [first, second] }));
    assert.match(told, /^trips\.csv:3: warning: 'Cem', late or changed: .* September 2026, .*\(books-2026-09\.json\)/);
    assert.deepEqual(more, []);
    assert.match(said(run(trips, { books: [second] }))[0], /^trips\.csv:2: warning: closed up to and including 2026-10: .*\(trips: 2,/);
    const whole = file('books-2026-10.json', closedOf(september + EVENING, '2026-10'));
    assert.match(said(run(trips, { books: [whole] }))[0], /^trips\.csv:3: warning: 'Cem', late or changed/);
});

test('books whose kept trips are damaged are not books', () => {
    const books = closedOf(OCTOBER, '2026-10');
    const months = '"period": "2026-10">"period": "2026-10", "period": "2026-11"';
    const trips = ['"in":>"on":', '"cents":1841>"cents":18.5', '"refused":10>"cents":-1', '"trips":[>"trips":[null,'];
    const rides = ['["Münster Hbf">["Nirgendwo"', '"level":"B">"level":"E"', '[1,2,3]>[1,2]', '"class":1>"class":3'];
    for (const change of [months, ...trips, ...rides]) {
        const [old, now] = change.split('>');
        assert.ok(books.includes(old), old);
        assert.deepEqual(
            said(run(TRIPS + MORNING, { books: books.replace(old, now) })),
            ['books:1: these are not books as they are written when a month is closed'],
            change,
        );
    }
});

// ---- Which books count

test('of several books those before the period count, and two of one month are an error that names both', () => {
    const october = file('books-2026-10.json', closedOf(EVENING + MORNING, '2026-10'));
    const november = file('books-2026-11.json', closedOf(EVENING + MORNING, '2026-11', { books: october }));
    const trips = TRIPS + EVENING + MORNING;
    const used = (period) => run(trips, { books: [november, october], period });
    assert.deepEqual(
        ['2026-10', '2026-11', '2026-12', null].map((period) => used(period).booksFile),
        [null, 'books-2026-10.json', 'books-2026-11.json', 'books-2026-11.json'],
    );
    assert.deepEqual(cents(used('2026-11')), [659]);
    const copy = file('kopie.json', new TextDecoder().decode(october.bytes));
    const result = run(trips, { books: [october, november, copy], period: '2026-11' });
    assert.deepEqual(said(result), [
        'kopie.json:1: books of October 2026 twice: books-2026-10.json and kopie.json; only one file can count',
    ]);
    assert.deepEqual(result.wages, []);
    const broken = run(trips, { books: [october, file('books-x.json', '{"form": "milecopper books 3"}')] });
    assert.deepEqual(said(broken), ['books-x.json:1: these are not books as they are written when a month is closed']);
});

test('what speaks against closing: the future, months left open, a later one closed, closed already', () => {
    const keys = ({ closing }) => closing.map(({ kind, key }) => `${kind} ${key}`);
    const trips = TRIPS + EVENING + MORNING;
    const ask = (period, today, books = []) => keys(run(trips, { period, today, books }));
    assert.deepEqual(ask('2026-10', '2026-11-03'), []);
    assert.deepEqual(ask('2026-10', null), []);
    assert.deepEqual(ask(null, '2026-11-03'), []);
    assert.deepEqual(ask('2026-10', '2026-09-30'), ['error closeFuture']);
    assert.deepEqual(ask('2026-10', '2026-10-31'), ['warning closeRunning']);
    assert.deepEqual(ask('2026-11', '2026-12-01'), ['error closeGap']);
    const october = file('books-2026-10.json', closedOf(EVENING + MORNING, '2026-10'));
    assert.deepEqual(ask('2026-11', '2026-12-01', [october]), []);
    assert.deepEqual(ask('2026-10', '2026-12-01', [october]), ['error closeTwice']);
    assert.deepEqual(ask('2026-09', '2026-12-01', [october]), ['error closeEarlier']);
    const { closing } = run(trips, { period: '2027-01', today: '2027-02-01', books: [october], language: 'de' });
    assert.deepEqual(closing.map(({ text }) => text), [
        'vor Januar 2027 ist noch nicht abgeschlossen: November 2026 (Fahrten: 1), Dezember 2026 (Fahrten: 0)',
    ]);
});

// ---- Which month is open

test('the month that is open: behind the last books the first with trips, else the month right behind them', () => {
    const trips = (...months) => months.map((month) => ({ month }));
    const open = (months, ...closings) => openMonth(monthsOf(trips(...months), closings));
    assert.equal(open(['2026-10', '2026-11', '2026-12'], '2026-10'), '2026-11');
    assert.equal(open(['2026-10', '2026-12'], '2026-09', '2026-10'), '2026-12');
    assert.equal(open(['2026-10'], '2026-10'), '2026-11');
    assert.equal(open([], '2026-12'), '2027-01');
    assert.equal(open(['2026-10', '2026-10', '2026-11']), '2026-10');
    assert.equal(open(['2026-10', '2026-11', '2026-11']), '2026-11');
    assert.equal(open(['2026-10']), '2026-10');
    assert.equal(open([]), null);
    assert.deepEqual(monthsOf(trips('2026-11', '2026-10', '2026-11'), ['2026-09']), [
        { month: '2026-09', trips: 0, closed: true },
        { month: '2026-10', trips: 1, closed: false },
        { month: '2026-11', trips: 2, closed: false },
    ]);
});

test('after closing, the open month is the one that is priced when it is asked for', () => {
    const books = [file('books-2026-10.json', closedOf(EVENING + MORNING, '2026-10'))];
    const trips = TRIPS + EVENING + MORNING;
    const [before, behind] = [run(trips, { period: 'open' }), run(trips, { period: 'open', books })];
    assert.deepEqual([before.period, before.open], ['2026-10', '2026-10']);
    assert.deepEqual([behind.period, behind.open], ['2026-11', '2026-11']);
    assert.deepEqual(behind.months.map(({ closed }) => closed), [true, false]);
    assert.deepEqual([behind.errors, behind.wages.map(({ period }) => period)], [0, ['2026-11']]);
});

// ---- What came before

test('November alone is told, once and with names: what it may cost, and what avoids it', () => {
    const [november, cem] = [MORNING, MORNING.replace('Anna Berg', 'Cem')];
    const late = MORNING.replace('Anna Berg', 'Dora').replace('11-01', '11-02');
    const told =
        'trips.csv:2: warning: of October 2026 there are neither trips nor books, and in the first 24 hours of ' +
        'November 2026 these ride already: Anna Berg, Cem. Where a window of the month before was still open, it ' +
        'begins anew here, and its caps are paid twice: of these trips, €36.82 in all, some may be too much. To ' +
        'avoid it, add books-2026-10.json or the trips of the month before';
    const alone = TRIPS + november + cem + late;
    for (const period of [null, '2026-11', 'open']) assert.deepEqual(said(run(alone, { period })), [told]);
    assert.deepEqual(said(run(alone, { books: closedOf(EVENING, '2026-10') })), []);
    assert.deepEqual(said(run(alone + EVENING, { period: '2026-11' })), []);
    assert.deepEqual(said(run(alone, { books: closedOf(EVENING.replace('10-31', '09-30'), '2026-09') })), [told]);
    assert.deepEqual(said(run(TRIPS + late)), []);
    const many = Array.from({ length: 50 }, (_, i) => MORNING.replace('Anna Berg', `Crew ${i + 1}`)).join('');
    assert.match(said(run(TRIPS + many))[0], /these ride already: Crew 1, .*, Crew 40 and 10 more\. Where/);
});

test("November alone: within 24 hours of the month's start, by the minute", () => {
    const at = (day, from, to) => `Anna Berg,2026-11-${day},${from},${to},Hamm Hbf,Hamm Betriebshof,,,,,,\n`;
    const keys = (trip) => run(TRIPS + trip).mistakes.map(({ key, values }) => [key, values.cents]);
    assert.deepEqual(keys(at('01', '00:00', '00:20')), [['lostWindows', 200]]);
    assert.deepEqual(keys(at('01', '23:30', '23:59')), [['lostWindows', 200]]);
    assert.deepEqual(keys(at('01', '23:30', '24:00')), []); // ends when no window of October can be open
    assert.deepEqual(keys(at('02', '00:00', '00:20')), []);
});

// ---- Books and tariff

test('a new stop, and a name that is mended, leave the books as good as they were', () => {
    const books = closedOf(EVENING, '2026-10');
    const stops = sample('stops.csv').replace('ms-hbf;', 'neu;Neuer Halt;Westfalen;1;1\nms-hbf;');
    const areas = sample('areas.csv').replaceAll('Aachen (AVV)', 'Aachen');
    const result = run(TRIPS + MORNING, { books, stops: stops.replaceAll('Aachen (AVV)', 'Aachen'), areas });
    assert.deepEqual([said(result), cents(result)], [[], [659]]);
});

test('a changed price or cap is told, and accepted with newTariff, with what it means for open windows', () => {
    const books = closedOf(EVENING, '2026-10');
    const areas = sample('areas.csv').replace('25,00;3,00', '24,00;3,00'); // the cap of Westfalen
    const refused = run(TRIPS + MORNING, { areas, books });
    assert.deepEqual(said(refused), [
        'books:1: since the closing areas have other prices or caps, or new ones were added. If that is meant: ' +
            "--new-tariff. In windows that are open beyond the month's end the new caps are compared with what was " +
            'charged under the old tariff: Anna Berg',
    ]);
    assert.deepEqual(refused.wages, []);
    const meant = run(TRIPS + MORNING, { areas, books, newTariff: true });
    assert.deepEqual(cents(meant), [2400 - 1841]);
    const told = /^books:1: warning: a new tariff: trips since the closing have the new prices\. .*Anna Berg$/;
    assert.match(said(meant)[0], told);
    const early = closedOf(EVENING.replace('10-31', '10-20'), '2026-10');
    assert.match(said(run(TRIPS + MORNING, { areas, books: early, newTariff: true }))[0], /so nothing mixes$/);
    assert.equal(run(TRIPS + MORNING, { books, newTariff: true }).warnings, 0);
    const strict = run(TRIPS + MORNING, { areas, books, newTariff: true, strict: true }); // it is meant
    assert.deepEqual([strict.errors, strict.warnings, cents(strict)], [0, 1, [559]]);
});

test('in a window that goes on under a new tariff, a cap that is passed takes all, and bicycles pay new flats', () => {
    const tram = 'Anna Berg,2026-10-31,22:10,22:20,Bielefeld Hbf,Bielefeld Rathaus,,,,,,1\n';
    const books = closedOf(tram + EVENING.replace('Münster', 'Paderborn'), '2026-10');
    const areas = sample('areas.csv').replace('25,00;3,00', '2,00;3,50').replace('5,50;1,50', '1,00;1,70');
    const trips = TRIPS + MORNING.replace(',,,,,,', ',,,,,,1');
    const result = run(trips, { areas, books, newTariff: true });
    const { riders } = result.members[0].entries[0].parts[0];
    assert.deepEqual(riders.map(({ sort, charge }) => [sort, charge]), [['holder', 0], ['bicycle', 350 - 170]]);
    assert.match(statementText(result.members[0], result, 'de'), /abgezogen 18,41 €: 24-Stunden-Deckel Westfalen/);
});

test('a new area behind the others is accepted with newTariff; areas that mean something else never are', () => {
    const books = closedOf(EVENING, '2026-10');
    const rows = sample('areas.csv').trimEnd().split('\n');
    const city = rows[4].replace('PB;Paderborn', 'GT;Gütersloh');
    const [added, ...more] = said(run(TRIPS + MORNING, { areas: [...rows, city].join('\n'), books, newTariff: true }));
    assert.match(added, /^books:1: warning: a new tariff/);
    assert.deepEqual(more, []);
    const others = {
        'two areas change places': [...rows.slice(0, 3), rows[4], rows[3], ...rows.slice(5)],
        'one comes between': [...rows.slice(0, 4), city, ...rows.slice(4)],
        'one has another id': rows.map((row) => row.replace('BOH;', 'BO;')),
        'one is gone': rows.slice(0, -1),
    };
    for (const [what, areas] of Object.entries(others)) {
        const gone = what === 'one is gone' ? ';Aachen (AVV);' : ';Stolberg;';
        const stops = sample('stops.csv').replaceAll(';Stolberg;', gone);
        const result = run(TRIPS + MORNING, { areas: areas.join('\n'), stops, books, newTariff: true });
        assert.deepEqual(
            said(result),
            [
                'books:1: the books belong to another tariff: since the closing the number, order, id, level, within ' +
                    'or kind of areas have changed. Areas keep their place in areas.csv; new ones come at the end',
            ],
            what,
        );
    }
});

test('in books from before there were editions a window is under the first', () => {
    const text = closedOf(EVENING, '2026-10');
    const words = (books) => JSON.parse(booksText(run(TRIPS, { period: '2026-11', books }))).members[0].words;
    for (const form of [beforeEditions, older]) {
        const books = form(text);
        assert.doesNotMatch(books, /\[1367,/);
        assert.deepEqual(words(books), JSON.parse(text).members[0].words);
        assert.deepEqual(words(books).at(-1), [1367, 1]);
        const { members: [anna], ...rest } = JSON.parse(books);
        const fresh = JSON.stringify({ ...rest, members: [{ ...anna, words: [] }] });
        assert.deepEqual(words(fresh), []);
        const said1367 = JSON.stringify({ ...rest, members: [{ ...anna, words: [...anna.words, [1367, 1]] }] });
        assert.deepEqual(said(run(TRIPS + MORNING, { books: said1367 })), [
            'books:1: these are not books as they are written when a month is closed',
        ]);
    }
    const result = run(TRIPS + EVENING + MORNING, { books: beforeEditions(text) });
    assert.deepEqual([said(result), cents(result)], [[], [659]]);
});

test('books of the older form are accepted where the whole tariff is as it was', () => {
    const books = older(closedOf(EVENING, '2026-10'));
    assert.deepEqual(cents(run(TRIPS + MORNING, { books })), [659]);
    const stops = `${sample('stops.csv')}neu;Neuer Halt;Westfalen;1;1\n`;
    for (const newTariff of [false, true]) {
        const [told, ...more] = said(run(TRIPS + MORNING, { books, stops, newTariff }));
        assert.match(told, /^books:1: the books belong to another tariff \([0-9a-f]{12}, not [0-9a-f]{12}\)\./);
        assert.deepEqual(more, []);
    }
});
