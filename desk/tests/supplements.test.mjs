// Supplements: what late and corrected trips of closed months cost, when they cannot be priced, and new books.
import assert from 'node:assert/strict';
import { test } from 'node:test';
import { booksText, parsedBooks } from '../books.mjs';
import { reopenedBooks } from '../reopening.mjs';
import { wagesText } from '../wages.mjs';
import { closedBooks, corrected, file, table } from './corrected.mjs';
import { TRIPS, engine, numbers, run, said, sample } from './support.mjs';

const ride = (member, date, times, from = 'Münster Hbf', to = 'Bielefeld Hbf') =>
    `${member},${date},${times},${from},${to},,,,,,\n`;
const SEPTEMBER = ride('Anna Berg', '2026-09-30', '22:40,23:55');
const OCTOBER = ride('Anna Berg', '2026-10-31', '22:40,23:55');
const CEM = ride('Cem', '2026-10-14', '12:00,13:15');
const NOVEMBER = ride('Anna Berg', '2026-11-01', '05:30,06:45', 'Bielefeld Hbf', 'Münster Hbf');
const LATE = ride('Anna Berg', '2026-10-31', '12:00,12:30', 'Hamm Hbf', 'Hamm Betriebshof');

const wages = (result) => wagesText(result, 'csv', 'en').trimEnd().split('\n').slice(1);
const total = (rows) => rows.reduce((sum, { cents }) => sum + cents, 0);
const lines = (result, key) => result.mistakes.filter((mistake) => mistake.key === key).map(({ line }) => line);

/** The same books as version 0.13 wrote them: no trips. */
function older({ name, bytes }) {
    const { editions: [{ tariff }], period, members } = JSON.parse(new TextDecoder().decode(bytes));
    const own = members.map(({ member, words }) => ({ member, words: words.filter(([at]) => at !== 1367) }));
    return file(name, JSON.stringify({ form: 'milecopper books 1', tariff, period, members: own }));
}

// ---- What is priced

test('a late trip is a supplement: rows of its own in the wages, told as such, and the closed books stay', () => {
    const books = [closedBooks(OCTOBER, '2026-10')];
    const result = corrected(TRIPS + OCTOBER + LATE + NOVEMBER, undefined, { books, period: 'open' });
    assert.deepEqual(said(result), [
        "trips.csv:3: warning: 'Anna Berg', late or changed: the trip lies in October 2026, which is closed " +
            '(books-2026-10.json), and what changes there is priced as a supplement',
    ]);
    assert.deepEqual(wages(result), ['Anna Berg,2026-11,1,0,6.59,', 'Anna Berg,2026-10,1,0,2.00,yes']);
    const rows = ['Anna Berg,holder,18.41,20.41,2.00,2026-10', 'Anna Berg,sum,18.41,20.41,2.00,2026-10'];
    assert.deepEqual(table(result), rows);
    assert.deepEqual([result.reopens, result.supplements.map(({ cents }) => cents)], ['2026-10', [200]]);
    const german = corrected(TRIPS + OCTOBER + LATE + NOVEMBER, undefined, { books, language: 'de' });
    assert.match(said(german)[0], /im abgeschlossenen Oktober 2026 .*, und was sich dort ändert, wird als Nachtrag/);
    const strict = corrected(TRIPS + OCTOBER + LATE + NOVEMBER, undefined, { books, strict: true });
    assert.equal(strict.errors, 0); // it is asked for
});

test('so are a corrected and a cancelled line of a closed month; nothing is told where the books have them so', () => {
    const books = [closedBooks(OCTOBER + CEM, '2026-10')];
    const trips = TRIPS + OCTOBER + CEM + NOVEMBER;
    const changed = corrected(trips, 'line,class,cancel\n2,1,\n3,,yes\n', { books, period: '2026-11' });
    assert.deepEqual(wages(changed), [
        ...['Anna Berg,2026-11,1,0,6.59,', 'Anna Berg,2026-10,0,0,9.21,yes', 'Cem,2026-10,-1,0,-18.41,yes'],
    ]);
    assert.deepEqual(lines(changed, 'supplement'), [2, 3]);
    const same = [closedBooks(OCTOBER + CEM, '2026-10', { corrections: 'line,class,cancel\n2,1,\n3,,yes\n' })];
    const known = corrected(trips, 'line,class,cancel\n2,1,\n3,,yes\n', { books: same, period: '2026-11' });
    assert.deepEqual([said(known), known.supplements, table(known)], [[], [], []]);
});

test('a trip that is moved out of a closed month is a supplement there and a difference here', () => {
    const books = [closedBooks(OCTOBER + CEM, '2026-10')];
    const result = corrected(TRIPS + OCTOBER + CEM + NOVEMBER, 'line,date\n3,2026-11-14\n', { books });
    assert.deepEqual(wages(result).slice(1), ['Cem,2026-11,1,0,18.41,', 'Cem,2026-10,-1,0,-18.41,yes']);
    assert.deepEqual(table(result), [
        ...['Cem,holder,0.00,18.41,18.41,', 'Cem,sum,0.00,18.41,18.41,'],
        ...['Cem,holder,18.41,0.00,-18.41,2026-10', 'Cem,sum,18.41,0.00,-18.41,2026-10'],
    ]);
});

test('a trip that was another member’s is a supplement of both', () => {
    const books = [closedBooks(OCTOBER + CEM, '2026-10')];
    const members = 'number,name\n1,Anna Berg\n2,Dora\n'; // Cem was a slip
    const options = { books, members };
    const result = corrected(TRIPS + OCTOBER + CEM + NOVEMBER, 'line,member\n3,Dora\n', options);
    const due = ['Cem,2026-10,-1,0,-18.41,,yes', 'Dora,2026-10,1,0,18.41,2,yes'];
    assert.deepEqual(wages(result), ['Anna Berg,2026-11,1,0,6.59,1,', ...due]);
    assert.deepEqual(lines(result, 'supplement'), [3, 3]);
    const missing = corrected(TRIPS + CEM + NOVEMBER, 'line,member\n2,Anna Berg\n', { books });
    assert.deepEqual(lines(missing, 'supplementMissing'), [2]);
});

test('damaged books before are an error, and nothing is put out', () => {
    const september = closedBooks(SEPTEMBER + CEM.replace('10-14', '09-14'), '2026-09');
    const october = closedBooks(SEPTEMBER + OCTOBER, '2026-10', { books: [september] });
    const text = new TextDecoder().decode(september.bytes);
    const damaged = file(september.name, text.replace('[0,1]', '[0,4000000000]'));
    const result = corrected(TRIPS + OCTOBER + LATE, undefined, { books: [damaged, october] });
    assert.ok(said(result).includes("books-2026-09.json:1: the book of 'Anna Berg' is damaged (4)"), said(result)[0]);
    assert.deepEqual([result.supplements, result.differences], [[], []]);
});

test('a window over the end of a closed month: the next closed months are supplemented too', () => {
    const early = ride('Anna Berg', '2026-09-30', '20:00,20:30', 'Hamm Hbf', 'Hamm Betriebshof');
    const first = ride('Anna Berg', '2026-10-01', '05:30,06:45', 'Bielefeld Hbf', 'Münster Hbf');
    const september = closedBooks(SEPTEMBER, '2026-09');
    const october = closedBooks(SEPTEMBER + first, '2026-10', { books: [september] });
    const books = [september, october];
    const result = corrected(TRIPS + SEPTEMBER + first + early, undefined, { books });
    assert.deepEqual(wages(result), ['Anna Berg,2026-09,1,0,2.00,yes', 'Anna Berg,2026-10,0,0,-2.00,yes']);
    assert.deepEqual([lines(result, 'supplement'), result.reopens], [[4], '2026-09']);
    const { files, fault } = reopenedBooks({ engine, files: given(SEPTEMBER + first + early, books) }, result);
    assert.deepEqual([fault, files.map(({ name }) => name)], [null, ['books-2026-09.json', 'books-2026-10.json']]);
});

test('who has no late trip has no row, and a late trip that costs nothing has one', () => {
    const books = [closedBooks(OCTOBER + CEM, '2026-10')];
    const free = ride('Cem', '2026-10-20', '12:00,12:01', 'Hamm Hbf', 'Hamm Hbf'); // refused with 17
    const result = corrected(TRIPS + OCTOBER + CEM + free, undefined, { books });
    assert.deepEqual(wages(result), ['Cem,2026-10,0,1,0.00,yes']);
    assert.equal(result.refused, 1);
    assert.deepEqual(result.mistakes.map(({ key, line }) => [key, line]), [['supplement', 4], ['refused', 4]]);
});

test('with members.csv a supplement has the personnel number', () => {
    const books = [closedBooks(OCTOBER, '2026-10')];
    const members = 'number,name\n0017,Anna Berg\n';
    const result = corrected(TRIPS + OCTOBER + LATE, undefined, { books, members });
    assert.deepEqual(wages(result), ['Anna Berg,2026-10,1,0,2.00,0017,yes']);
});

test('where it is not asked for, it is told that correct prices it', () => {
    const books = [closedBooks(OCTOBER + CEM, '2026-10')];
    const result = run(TRIPS + OCTOBER + CEM + LATE, { books, corrections: 'line,cancel\n3,yes\n' });
    assert.deepEqual(lines(result, 'lateTrip'), [3, 4]);
    assert.match(said(result)[0], /here\. '\.\/milecopper correct' prices it as a supplement \(corrected in /);
    assert.deepEqual([result.supplements, result.wages], [[], []]);
});

// ---- Under a ceiling

test('under a ceiling a supplement has what is charged and collected, by the ceiling that the books know', () => {
    const ceiling = 2000;
    const books = [closedBooks(OCTOBER + CEM, '2026-10', { ceiling })];
    const late = LATE.replace('2026-10-31', '2026-10-30');
    const trips = TRIPS + OCTOBER + CEM + late + NOVEMBER;
    const result = corrected(trips, 'line,cancel\n3,yes\n', { books, ceiling: 500 });
    assert.deepEqual(wages(result), [
        'Anna Berg,2026-11,1,0,5.00,6.59,',
        'Anna Berg,2026-10,1,0,1.59,2.00,yes', // 20,00 less 18,41
        'Cem,2026-10,-1,0,-18.41,-18.41,yes',
    ]);
    assert.deepEqual(table(result).filter((row) => /Anna Berg/.test(row)), [
        'Anna Berg,holder,18.41,20.41,2.00,2026-10',
        ...['Anna Berg,charged,18.41,20.41,2.00,2026-10', 'Anna Berg,collected,18.41,20.00,1.59,2026-10'],
    ]);
});

// ---- What cannot be priced

test('books that keep no trips: a correction of their month is a mistake that says so', () => {
    const books = [older(closedBooks(OCTOBER, '2026-10'))];
    const trips = TRIPS + OCTOBER + NOVEMBER;
    const [told, ...more] = said(corrected(trips, 'line,cancel\n2,yes\n', { books }));
    assert.equal(
        told,
        'trips.csv:2: no supplement is possible: the trip lies in October 2026, which is closed, and ' +
            'books-2026-10.json keeps no trips, so it does not say what was charged for it ' +
            '(corrected in corrections.csv, line 2)',
    );
    assert.deepEqual(more, []);
    const tolerant = corrected(trips, 'line,cancel\n2,yes\n', { books, tolerant: true });
    assert.deepEqual([tolerant.errors, lines(tolerant, 'supplementUnkept'), wages(tolerant).length], [0, [2], 1]);
    assert.match(said(corrected(trips + LATE, undefined, { books }))[0], /closed up to and including 2026-10: .*\(trips: 2, the first/);
});

test('the books before are needed, and all trips since then, as they were', () => {
    const september = closedBooks(SEPTEMBER, '2026-09');
    const october = closedBooks(SEPTEMBER + OCTOBER + CEM, '2026-10', { books: [september] });
    const trips = TRIPS + OCTOBER + CEM + LATE + NOVEMBER;
    assert.deepEqual(said(corrected(trips, undefined, { books: [october] })), [
        "trips.csv:4: 'Anna Berg': for the supplement the books are missing that books-2026-10.json went on from: " +
            'books-2026-09.json',
    ]);
    const both = [september, october];
    assert.deepEqual(wages(corrected(trips, undefined, { books: both })).at(-1), 'Anna Berg,2026-10,1,0,2.00,yes');
    const missing = corrected(TRIPS + LATE + NOVEMBER, undefined, { books: both });
    assert.deepEqual([said(missing), missing.wages], [
        [
            "trips.csv:2: 'Anna Berg': no supplement is possible: books-2026-10.json has trips that are missing " +
                'today (1, the first of 31 Oct 2026, 22:40). All trips since the books before have to be there as ' +
                'they were; they are changed and cancelled in corrections.csv',
        ],
        [],
    ]);
    const tolerant = corrected(TRIPS + LATE + NOVEMBER, undefined, { books: both, tolerant: true });
    assert.deepEqual([tolerant.errors, tolerant.warnings, wages(tolerant)], [0, 1, ['Anna Berg,2026-11,1,0,6.59']]);
});

test('books that do not go on from each other, and a tariff with other areas, are told', () => {
    const late = LATE.replace('2026-10-31', '2026-09-15');
    const september = closedBooks(SEPTEMBER, '2026-09');
    const alone = closedBooks(SEPTEMBER + OCTOBER, '2026-10'); // from a fresh start
    const apart = corrected(TRIPS + SEPTEMBER + OCTOBER + late, undefined, { books: [september, alone] });
    assert.match(said(apart)[0], /books-2026-10\.json does not go on from books-2026-09\.json, or keeps no trips$/);
    const text = new TextDecoder().decode(september.bytes);
    const other = text.replace(/("structure":")([0-9a-f])/, (_, key, sign) => key + (sign === '0' ? 1 : 0));
    const changed = file('books-2026-09.json', other);
    const october = closedBooks(SEPTEMBER + OCTOBER, '2026-10', { books: [september] });
    const wrong = corrected(TRIPS + SEPTEMBER + OCTOBER + LATE, undefined, { books: [changed, october] });
    assert.match(said(wrong)[0], /no supplement is possible: books-2026-09\.json belongs to a tariff with other areas$/);
});

test('under a changed tariff the supplement says that it has that difference, too, and only the sum is there', () => {
    const books = [closedBooks(OCTOBER, '2026-10')];
    const areas = sample('areas.csv').replace('WF;Westfalen;1;region;NRW;1,40', 'WF;Westfalen;1;region;NRW;2,40');
    const result = corrected(TRIPS + OCTOBER + LATE + NOVEMBER, undefined, { books, areas, newTariff: true });
    assert.deepEqual(table(result), ['Anna Berg,sum,18.41,21.41,3.00,2026-10']);
    const told = result.mistakes.find(({ key }) => key === 'supplementPrices');
    assert.deepEqual([told.line, told.values.charged, told.values.due], [3, 1841, 1941]);
    assert.match(told.text, /cost €19\.41 under today's tariff, and €18\.41 was charged; this difference, too,/);
});

// ---- New books

const given = (trips, books, corrections) => {
    const [areas, stops] = ['areas.csv', 'stops.csv'].map(sample);
    return { areas, stops, trips: TRIPS + trips, books, corrections };
};

test('a month with a supplement is closed only if asked for once more, until the books are replaced', () => {
    const books = [closedBooks(OCTOBER, '2026-10')];
    const options = { books, period: '2026-11', today: '2026-12-01' };
    const doubts = (rest) => corrected(TRIPS + OCTOBER + LATE + NOVEMBER, undefined, { ...options, ...rest }).closing;
    assert.deepEqual(doubts({}).map(({ kind, key }) => `${kind} ${key}`), ['error closeSupplement']);
    assert.match(doubts({ language: 'de' })[0].text, /^für Oktober 2026 gibt es einen Nachtrag, .*\(--reopen\)/);
    assert.deepEqual(doubts({ reopen: true }), []);
});

test('reopened, the open month goes on from the corrected books, and these are what closing would have written', () => {
    const books = [closedBooks(OCTOBER + CEM, '2026-10')];
    const trips = OCTOBER + CEM + LATE + NOVEMBER;
    const options = { engine, language: 'en', files: given(trips, books) };
    const result = corrected(TRIPS + trips, undefined, { books, reopen: true });
    assert.deepEqual(wages(result), ['Anna Berg,2026-11,1,0,4.59,', 'Anna Berg,2026-10,1,0,2.00,yes']);
    assert.equal(table(result)[0], 'Anna Berg,holder,6.59,4.59,-2.00,'); // the window over the month's end
    const { files, fault } = reopenedBooks(options, result);
    assert.deepEqual([fault, files.length, files[0].name], [null, 1, 'books-2026-10.json']);
    const due = booksText(run(TRIPS + OCTOBER + CEM + LATE, { period: '2026-10' }));
    assert.equal(new TextDecoder().decode(files[0].bytes), due);
    const again = corrected(TRIPS + trips, undefined, { books: files });
    assert.deepEqual([said(again), wages(again)], [[], ['Anna Berg,2026-11,1,0,4.59']]);
    assert.deepEqual(reopenedBooks({ ...options, files: given(trips, files) }, again), { files: [], fault: null });
});

test('books are not replaced where somebody without a supplement would have others', () => {
    const books = [closedBooks(OCTOBER + CEM, '2026-10')];
    const trips = OCTOBER + LATE; // Cem's trip is missing today
    const result = corrected(TRIPS + trips, undefined, { books });
    const reopened = reopenedBooks({ engine, language: 'en', files: given(trips, books) }, result);
    assert.deepEqual(reopened, { files: [], fault: { name: 'books-2026-10.json', member: 'Cem' } });
});

test('the sender stays in reopened books', () => {
    const association = { name: 'Verein', contact: 'mail' };
    const text = booksText({ ...run(TRIPS + OCTOBER, { period: '2026-10' }), association });
    const books = [file('books-2026-10.json', text)];
    const result = corrected(TRIPS + OCTOBER + LATE, undefined, { books });
    const { files: [{ bytes }] } = reopenedBooks({ engine, files: given(OCTOBER + LATE, books) }, result);
    assert.deepEqual(parsedBooks(new TextDecoder().decode(bytes)).association, association);
});

// ---- All together

/** Random trips of three members in three months, with nights over their ends. */
function randomTrips(below, count) {
    const days = ['2026-09-15', '2026-09-29', '2026-09-30', '2026-10-01', '2026-10-02', '2026-10-30', '2026-10-31'];
    const stops = ['Münster Hbf', 'Hamm Hbf', 'Bielefeld Hbf', 'Aachen Hbf', 'Bielefeld Rathaus'];
    return Array.from({ length: count }, () => {
        const [hour, day] = [below(23), [...days, '2026-11-01', '2026-11-02'][below(9)]];
        const times = `${hour}:${10 + below(50)},${hour + 1}:${10 + below(50)}`;
        return ride(`Crew ${below(3)}`, day, times, stops[below(5)], stops[below(5)]);
    });
}

test('random changes: closed wages, supplements and the open month are together the whole settled afresh', () => {
    const seen = { supplements: 0, chained: 0 };
    for (let seed = 1; seed <= 20; seed += 1) {
        const below = numbers(seed);
        const all = randomTrips(below, 40);
        const late = all.slice(30).join('');
        const then = all.slice(0, 30).join('');
        const ceiling = seed % 3 === 0 ? 5000 : null;
        const cancel = Array.from({ length: 3 }, () => 2 + below(30)).filter((line, i, own) => own.indexOf(line) === i);
        const corrections = `line,cancel\n${cancel.map((line) => `${line},yes\n`).join('')}`;
        const september = closedBooks(then, '2026-09', { ceiling });
        const october = closedBooks(then, '2026-10', { ceiling, books: [september] });
        const paid = ['2026-09', '2026-10'].map((period) => total(run(TRIPS + then, { period, ceiling }).wages));
        const books = [september, october];
        const result = corrected(TRIPS + then + late, corrections, { books, ceiling, reopen: true });
        assert.equal(result.errors, 0, `seed ${seed}: ${said(result)[0]}`);
        const whole = run(TRIPS + then + late, { corrections, ceiling });
        const sum = paid[0] + paid[1] + total(result.supplements) + total(result.wages);
        assert.equal(sum, total(whole.wages), `seed ${seed}`);
        const months = new Set(result.supplements.map(({ period }) => period));
        seen.supplements += result.supplements.length;
        seen.chained += months.size > 1 ? 1 : 0;
        const options = { engine, ceiling, files: given(then + late, books, corrections) };
        const { files, fault } = reopenedBooks(options, result);
        assert.equal(fault, null);
        const kept = new Map([september, october, ...files].map((own) => [own.name, own]));
        const again = corrected(TRIPS + then + late, corrections, { books: [...kept.values()], ceiling });
        assert.deepEqual([again.supplements, again.wages], [[], result.wages], `seed ${seed}`);
    }
    assert.ok(seen.supplements > 40 && seen.chained > 5, JSON.stringify(seen));
});
