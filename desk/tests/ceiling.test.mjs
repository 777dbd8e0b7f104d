// A monthly ceiling: what is collected, whose months these are, what books keep of them, and what the desk says of it.
import assert from 'node:assert/strict';
import { test } from 'node:test';
import { booksText } from '../books.mjs';
import { ceilingOf, keptBytes, keptOf } from '../ceiling.mjs';
import { monthOf } from '../clock.mjs';
import { glanceOf } from '../glance.mjs';
import { statementHtml } from '../sheets.mjs';
import { agreeStatements, membersOf, statementText } from '../statement.mjs';
import { agreeWages, chargesText, wagesText } from '../wages.mjs';
import { crewFiles } from './crew.mjs';
import { TRIPS, engine, run, said, sample } from './support.mjs';

const ride = (date, times, member = 'Anna Berg') => `${member},${date},${times},Münster Hbf,Bielefeld Hbf,,,,,,\n`;
const EVENING = '22:40,23:55'; // 18.41
const OCTOBER = ['02', '06', '10'].map((day) => ride(`2026-10-${day}`, EVENING)).join('');
const file = (name, text) => ({ name, bytes: new TextEncoder().encode(text) });
const entriesOf = (result) => result.members.flatMap(({ entries }) => entries);
const collected = (result) => entriesOf(result).map((entry) => entry.collected);
const months = (result) => entriesOf(result).map(({ month }) => month);

// ---- What is collected

test('a month is collected up to the ceiling, which is reached in its middle, and the next month starts at 0', () => {
    const result = run(TRIPS + OCTOBER + ride('2026-11-20', EVENING), { ceiling: 3000 });
    assert.deepEqual(said(result), []);
    assert.deepEqual(collected(result), [1841, 1159, 0, 1841]);
    assert.deepEqual(entriesOf(result).map(({ cents }) => cents), [1841, 1841, 1841, 1841]);
    assert.deepEqual(result.wages, [
        { member: 'Anna Berg', period: '2026-10', trips: 3, refused: 0, cents: 3000, charged: 5523 },
        { member: 'Anna Berg', period: '2026-11', trips: 1, refused: 0, cents: 1841, charged: 1841 },
    ]);
});

test('the least ceiling collects nothing, one of the very sum and the most all of it', () => {
    const trips = TRIPS + OCTOBER;
    for (const [ceiling, due] of [[0, [0, 0, 0]], [5522, [1841, 1841, 1840]], [5523, [1841, 1841, 1841]]]) {
        assert.deepEqual(collected(run(trips, { ceiling })), due, `${ceiling}`);
    }
    assert.deepEqual(collected(run(trips, { ceiling: 1000000 })), [1841, 1841, 1841]);
    for (const ceiling of [-1, 0.5, 1000001, NaN, '150']) assert.throws(() => run(trips, { ceiling }), RangeError);
});

test('on the crew of a month: charges and books are uncut, and every sum is the smaller of ceiling and charges', () => {
    const { 'trips.csv': trips, 'members.csv': members } = crewFiles();
    const plain = run(trips, { members });
    const total = (result, key) => result.wages.reduce((sum, row) => sum + row[key], 0);
    let cut = 0;
    for (const ceiling of [0, 9000, 15000, 1000000]) {
        const result = run(trips, { members, ceiling });
        assert.equal(result.errors, 0);
        assert.equal(total(result, 'charged'), total(plain, 'cents'));
        assert.deepEqual(result.books, plain.books);
        for (const { cents, charged } of result.wages) assert.equal(cents, Math.min(ceiling, charged));
        cut += result.wages.filter(({ cents, charged }) => 0 < cents && cents < charged).length;
        const rows = result.charges;
        assert.equal(rows.reduce((sum, row) => sum + (row.collected ?? 0), 0), total(result, 'cents'));
        assert.equal(rows.reduce((sum, row) => sum + (row.charge ?? 0), 0), total(result, 'charged'));
    }
    assert.ok(cut > 20, `${cut}`);
});

test('what a trip collects stands in its first row, those of its party and its second part left out', () => {
    const result = run(sample('trips.csv'), { period: '2026-10', ceiling: 4000 });
    const first = (row, i, all) => all.findIndex(({ line }) => line === row.line) === i;
    const rows = result.charges;
    assert.equal(Object.keys(rows[0]).at(-1), 'collected');
    const trips = new Map(entriesOf(result).map((entry) => [entry.line, entry]));
    for (const [i, row] of rows.entries()) {
        const { accepted, collected: due } = trips.get(row.line);
        assert.equal(row.collected, first(row, i, rows) && accepted ? due : null, `${row.line}`);
    }
    assert.ok(rows.some(({ part, collected: due }) => part === 2 && due === null)); // there is a broken trip
    assert.ok(rows.some(({ refusal, collected: due }) => refusal !== null && due === null));
    const csv = chargesText(result, 'csv', 'de').split('\n');
    assert.match(csv[0], /;refusal;collected$/);
    assert.match(csv[1], /^Anna Berg;2;.*;holder;2,21;2,21;0,00;;;;3,71$/);
    assert.match(csv[2], /^Anna Berg;2;.*;bicycle 1;;1,50;;;;;$/);
});

// ---- Months

test('months are those of UTC under a ceiling, by either offset, and those of the wall without one', () => {
    const winter = [ride('2026-11-01', '00:30,00:50'), ride('2026-11-01', '01:00,01:20')].join('');
    const summer = [ride('2026-07-01', '01:59,02:19'), ride('2026-07-01', '02:30,02:50')].join('');
    assert.deepEqual(months(run(TRIPS + winter, { ceiling: 100 })), ['2026-10', '2026-11']);
    assert.deepEqual(months(run(TRIPS + winter)), ['2026-11', '2026-11']);
    assert.deepEqual(months(run(TRIPS + summer, { ceiling: 100 })), ['2026-06', '2026-07']);
    assert.deepEqual(months(run(TRIPS + summer)), ['2026-07', '2026-07']);
    const over = ride('2026-11-01', '00:59,03:10'); // it ends in November by any clock
    assert.deepEqual(months(run(TRIPS + over, { ceiling: 100 })), ['2026-10']);
    assert.deepEqual([monthOf('UTC', 0), monthOf('Europe/Berlin', -60)], ['2000-01', '2000-01']);
    const early = run(TRIPS + ride('2000-01-01', '00:30,00:50'), { ceiling: 100 }); // before there are months
    assert.deepEqual([months(early), early.refused], [['2000-01'], 1]);
});

test('a period has the trips of its UTC month, and its statement says where the others count', () => {
    const night = ride('2026-10-31', EVENING) + ride('2026-11-01', '00:30,00:50') + ride('2026-11-01', '05:30,06:45');
    const result = run(TRIPS + night, { period: '2026-10', ceiling: 2000 });
    assert.deepEqual(result.wages, [
        { member: 'Anna Berg', period: '2026-10', trips: 2, refused: 0, cents: 2000, charged: 2500 },
    ]);
    const november = run(TRIPS + night, { period: '2026-11', ceiling: 2000 });
    const text = statementText(november.members[0], november, 'en');
    assert.equal(text.match(/counts in October 2026/g).length, 2);
    assert.match(statementText(result.members[0], result, 'en'), /The window reaches into November 2026/);
    const plain = run(TRIPS + night, { period: '2026-10' });
    assert.deepEqual([plain.wages[0].trips, plain.wages[0].cents], [1, 1841]);
    // a window to 00:30 on 1 November
    const within = (options) => {
        const own = run(TRIPS + ride('2026-10-31', '00:30,00:50'), { period: '2026-10', ...options });
        return !statementText(own.members[0], own, 'en').includes('The window reaches into November 2026');
    };
    assert.deepEqual([within({ ceiling: 2000 }), within({})], [true, false]);
});

test('the month at a glance has its bars within the month, also those of the first hours by the wall', () => {
    const trips = ride('2026-10-01', '02:10,02:30') + ride('2026-11-01', '00:40,00:59');
    const result = run(TRIPS + trips, { period: '2026-10', ceiling: 100 });
    const [{ bars, minutes }] = glanceOf(result, 'en');
    assert.deepEqual(bars.map(({ from, to }) => [from, to]), [[10, 1450], [44620, 46060]]);
    assert.equal(minutes, 46080);
    const [wall] = glanceOf(run(TRIPS + trips, { period: '2026-10' }), 'en');
    assert.deepEqual(wall.bars.map(({ from, to }) => [from, to]), [[130, 1570]]);
});

// ---- Books

const CLOSED = OCTOBER + ride('2026-10-31', EVENING) + ride('2026-10-05', '08:00,09:00', 'Cem');
const NEXT = ride('2026-11-01', '05:30,06:45') + ride('2026-11-20', EVENING);
const closedOf = (trips, period, options) => booksText(run(TRIPS + trips, { period, ...options }));

test('books say whose months they have, the ceiling, and what is kept of each member’s month', () => {
    const text = closedOf(CLOSED + NEXT, '2026-10', { ceiling: 3000 });
    const books = JSON.parse(text);
    const { form, months: zone, ceiling, members } = books;
    assert.deepEqual([form, zone, ceiling], ['milecopper books 4', 'UTC', 3000]);
    assert.deepEqual(
        members.map(({ member, collected: kept }) => [member, kept]),
        [['Anna Berg', { month: '2026-10', cents: 3000 }], ['Cem', { month: '2026-10', cents: 1841 }]],
    );
    const plain = JSON.parse(closedOf(CLOSED + NEXT, '2026-10'));
    assert.deepEqual([plain.form, plain.months, plain.ceiling], ['milecopper books 3', undefined, undefined]);
    assert.deepEqual(plain.members, members.map(({ collected: kept, ...rest }) => rest));
});

test('the next month goes on from the books as from the trips, its window too, and so do their books', () => {
    const options = { period: '2026-11', ceiling: 2000 };
    const books = closedOf(CLOSED + NEXT, '2026-10', { ceiling: 3000 }); // another ceiling in another month
    const [all, next] = [run(TRIPS + CLOSED + NEXT, options), run(TRIPS + NEXT, { ...options, books })];
    assert.deepEqual([said(next), next.booksCeiling], [[], 3000]);
    assert.deepEqual(next.wages, all.wages);
    assert.deepEqual(next.wages.map(({ cents, charged }) => [cents, charged]), [[2000, 2500]]); // 6.59 and 18.41
    const kept = ({ members }) => members.map(({ member, collected: own }) => [member, own.month, own.cents]);
    const due = [['Anna Berg', '2026-11', 2000], ['Cem', '2026-10', 1841]]; // nothing of his is new
    assert.deepEqual(kept(JSON.parse(booksText(next))), due);
    assert.deepEqual(said(run(TRIPS + CLOSED + NEXT, { ...options, books })), []); // all closed trips are known
});

test('books and trips whose months are counted otherwise are a mistake that says why', () => {
    const [utc, wall] = [closedOf(CLOSED, '2026-10', { ceiling: 3000 }), closedOf(CLOSED, '2026-10')];
    const told = (books, options) => said(run(TRIPS + NEXT, { books, ...options }));
    assert.deepEqual(told(wall, { ceiling: 3000 }), [
        'books:1: these books count months by the clock on the wall, but under a monthly ceiling months are those of ' +
            'UTC: a trip just after midnight on the first would fall between both months and never be priced. Please ' +
            'go on without a ceiling (--ceiling), or without these books, with all trips',
    ]);
    assert.deepEqual(told(utc, {}), [
        'books:1: these books were written under a monthly ceiling and count months by UTC; here there is none, and ' +
            'months go by the clock on the wall: a trip just after midnight on the first would stand in both months ' +
            'and be priced twice. Please give the ceiling (--ceiling), or go without these books, with all trips',
    ]);
    assert.match(told(wall, { ceiling: 0, language: 'de' })[0], /nach der Uhr an der Wand, .* fiele zwischen beide/);
    assert.match(told(utc, { language: 'de' })[0], /nach Weltzeit \(UTC\), .* würde zweimal berechnet/);
    assert.deepEqual(run(TRIPS + NEXT, { books: wall, ceiling: 3000 }).wages, []);
    assert.deepEqual([told(wall, {}), told(utc, { ceiling: 3000 })], [[], []]);
});

test('so are older books, and of several those that count; later ones are not looked at', () => {
    const wall = closedOf(CLOSED, '2026-10');
    const { editions: [{ from, ...only }], members, ...rest } = JSON.parse(wall);
    const own = members.map(({ words, ...member }) => ({ ...member, words: words.filter(([at]) => at !== 1367) }));
    const second = JSON.stringify({ ...rest, form: 'milecopper books 2', ...only, members: own });
    const first = JSON.stringify({ ...rest, form: 'milecopper books 1', tariff: only.tariff, members: own });
    for (const books of [first, second]) {
        assert.deepEqual(said(run(TRIPS + NEXT, { books })), []);
        assert.match(said(run(TRIPS + NEXT, { books, ceiling: 1 }))[0], /^books:1: these books count months by the/);
    }
    const september = ride('2026-09-10', EVENING);
    const earlier = file('books-2026-09.json', closedOf(september, '2026-09'));
    const later = file('books-2026-10.json', closedOf(september + CLOSED, '2026-10', { ceiling: 3000 }));
    const mixed = (options) => said(run(TRIPS + september + CLOSED + NEXT, { books: [earlier, later], ...options }));
    const wrong = mixed({ period: '2026-11', ceiling: 3000 });
    assert.deepEqual(wrong.map((line) => line.slice(0, 32)), ['books-2026-09.json:1: these book']);
    assert.deepEqual(mixed({ period: '2026-10' }), []);
});

test('books whose ceiling or kept month cannot be are no books', () => {
    const books = closedOf(CLOSED, '2026-10', { ceiling: 3000 });
    const tops = ['"months": "UTC">"months": "Europe/Berlin"', '"ceiling": 3000>"ceiling": 1000001'];
    const kept = ['"cents":3000}>"cents":1000001}', '"cents":3000}>"cents":-1}', '"cents":3000}>"cents":0.5}'];
    const of = ['"month":"2026-10">"month":"2026-11"', '"month":"2026-10">"month":7', '"collected":>"kept":'];
    for (const change of [...tops, ...kept, ...of]) {
        const [old, now] = change.split('>');
        assert.ok(books.includes(old), old);
        const result = run(TRIPS + NEXT, { books: books.replace(old, now), ceiling: 3000 });
        assert.deepEqual(said(result), ['books:1: these are not books as they are written when a month is closed'], change);
    }
});

test('what is kept has the month and the amount, and a fresh one neither', () => {
    assert.deepEqual([...keptBytes({ month: '2026-10', cents: 15000 })], [65, 1, 0, 0, 152, 58, 0, 0]);
    for (const month of ['2000-01', '2000-12', '2026-10', '2099-12']) {
        assert.deepEqual(keptOf(keptBytes({ month, cents: 1000000 })), { month, cents: 1000000 });
    }
    assert.deepEqual([...keptBytes({ month: '2000-01', cents: 0 })], [0, 0, 0, 0, 0, 0, 0, 0]);
});

// ---- Sums that disagree

test('what is collected and kept has to be what the desk adds up, else nothing is put out', () => {
    const dueOf = ({ settle }, change) => ({
        settle: (trip) => {
            const answer = settle(trip);
            return { ...answer, due: change(answer.due) };
        },
    });
    const keptOver = ({ kept }, change) => ({ kept: () => kept().map((byte, at) => change(at, byte)) });
    const tampered = {
        due: (account) => dueOf(account, (due) => due + 1),
        amount: (account) => keptOver(account, (at, byte) => (at === 4 ? byte ^ 1 : byte)),
        month: (account) => keptOver(account, (at, byte) => (at === 0 ? byte ^ 1 : byte)),
        both: (account) => ({ ...dueOf(account, () => 0), ...keptOver(account, (at, byte) => (at < 4 ? byte : 0)) }),
    };
    const wrong = /^trips\.csv:1: the sums of 'Anna Berg' do not agree .*\(collected in 2026-10/;
    for (const [what, change] of Object.entries(tampered)) {
        const open = (...given) => ((account) => ({ ...account, ...change(account) }))(engine.open(...given));
        const result = run(TRIPS + OCTOBER, { ceiling: 3000, engine: { ...engine, open } });
        assert.match(said(result)[0], wrong, what);
        assert.deepEqual([result.wages, result.charges, result.collected.size], [[], [], 0], what);
    }
});

test('wages whose charges or amount are not those of the trips are found out, and no statement is made', () => {
    for (const key of ['cents', 'charged']) {
        const result = run(TRIPS + OCTOBER, { ceiling: 3000 });
        agreeWages(result.wages, result.members, 3000);
        result.wages[0][key] += 1;
        assert.throws(() => agreeWages(result.wages, result.members, 3000), { member: 'Anna Berg' }, key);
        assert.throws(() => agreeStatements(result), { name: 'Error', member: 'Anna Berg' }, key);
        assert.throws(() => statementText(result.members[0], result, 'en'), { member: 'Anna Berg' }, key);
    }
});

// ---- What is put out

test('wages: what is collected, and in the last column what was charged, in months that are called UTC’s', () => {
    const options = { period: '2026-10', ceiling: 3000 };
    const result = run(TRIPS + OCTOBER, options);
    assert.equal(
        wagesText(result, 'csv', 'en'),
        'member,period_utc,trips,refused,amount,charged\nAnna Berg,2026-10,3,0,30.00,55.23\n',
    );
    assert.deepEqual(JSON.parse(wagesText(result, 'json', 'en')), [
        { member: 'Anna Berg', period_utc: '2026-10', trips: 3, refused: 0, cents: 3000, charged: 5523 },
    ]);
    const known = run(TRIPS + OCTOBER, { ...options, members: 'number;name\n0815;Anna Berg\n' });
    assert.equal(
        wagesText(known, 'csv', 'de'),
        '\uFEFFmember;period_utc;trips;refused;amount;number;charged\nAnna Berg;2026-10;3;0;30,00;0815;55,23\n',
    );
});

const ENDS = {
    de: `
================================================================================
Monate sind hier die der Weltzeit (UTC): eine Fahrt zählt zu dem Monat, in dem
dort ihr Check-in liegt.
Berechnet im Oktober 2026 (UTC)                                          55,23 €
Monatsdeckel                                                             30,00 €
Eingezogen                                                               30,00 €

`,
    en: `
================================================================================
Months are those of UTC here: a trip counts in the month of its check-in there.
Charged in October 2026 (UTC)                                             €55.23
Monthly ceiling                                                           €30.00
Collected                                                                 €30.00

`,
};

test('a statement ends with what was charged, the ceiling and what is collected, in both languages', () => {
    const result = run(TRIPS + OCTOBER, { period: '2026-10', ceiling: 3000 });
    const [anna] = membersOf(result);
    const heads = { de: /^3 Fahrten {2,}Eingezogen 30,00 €$/m, en: /^3 trips {2,}Collected €30\.00$/m };
    for (const language of ['de', 'en']) {
        const text = statementText(anna, result, language);
        assert.ok(text.includes(`${ENDS[language]}${'-'.repeat(80)}\n`), text);
        assert.match(text, heads[language]);
        const html = statementHtml(anna, result, language);
        const [, ending] = html.match(/<section class="ending">(.*?)<\/section>/s);
        const rows = [...ending.matchAll(/<th scope="row">(.*?)<\/th><td>(.*?)<\/td>/g)].map(([, ...row]) => row);
        const due = ENDS[language].trim().split('\n').slice(-3).map((line) => line.split(/ {2,}/));
        assert.deepEqual(rows.map((row) => row.map((cell) => cell.replaceAll('\u00a0', ' '))), due);
        assert.match(ending, /UTC/);
    }
    const plain = run(TRIPS + OCTOBER, { period: '2026-10' });
    assert.ok(!/UTC|Ceiling|ceiling|Collected/.test(statementText(plain.members[0], plain, 'en')));
    assert.ok(!statementHtml(plain.members[0], plain, 'en').includes('class="ending"'));
});

test('a statement of all months has the three for each of them', () => {
    const result = run(TRIPS + OCTOBER + ride('2026-11-20', EVENING), { ceiling: 3000 });
    const text = statementText(result.members[0], result, 'en');
    const amounts = [...text.matchAll(/^(Charged in|Monthly|Collected).* €([\d.]+)$/gm)].map(([, , amount]) => amount);
    assert.deepEqual(amounts, ['55.23', '30.00', '30.00', '18.41', '30.00', '18.41']);
    assert.match(text, /^4 trips {2,}Collected €48\.41$/m);
});

// ---- The amount

test('amounts as they are written: a point or a comma, up to 10,000 euros', () => {
    const right = { '150,00': 15000, 150: 15000, '0': 0, '0.5': 50, ' 10000,00 ': 1000000 };
    for (const [text, cents] of Object.entries(right)) assert.equal(ceilingOf(text), cents, text);
    for (const text of ['', 'abc', '-1', '10000,01', '150,001', '1.500,00', '150 €', '1e3', '99999999']) {
        assert.equal(ceilingOf(text), null, text);
    }
});
