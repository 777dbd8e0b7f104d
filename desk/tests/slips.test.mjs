// What may be a slip is told as a warning and priced as it stands; strict, it is an error.
import assert from 'node:assert/strict';
import { spawnSync } from 'node:child_process';
import path from 'node:path';
import { test } from 'node:test';
import { booksText } from '../books.mjs';
import { personFinder } from '../names.mjs';
import { ROOT, SAMPLE, TRIPS, run, said } from './support.mjs';

const ride = (date, depart, arrive, member = 'Anna Berg') =>
    `${member},${date},${depart},${arrive},Münster Hbf,Hamm Hbf\n`;
const warned = (...rides) => said(run(TRIPS + rides.join(''))).map((line) => line.replace(/^trips\.csv:/, ''));

test('a ride of more than 6 hours: a mistyped arrival is the next day’s', () => {
    assert.deepEqual(warned(ride('2026-10-05', '13:10', '12:50')), [
        '2: warning: takes 23 h 40 min; is the arrival right?',
    ]);
    assert.deepEqual(warned(ride('2026-10-05', '06:00', '12:00')), []);
    assert.deepEqual(warned(ride('2026-10-05', '06:00', '12:01')), [
        '2: warning: takes 6 h 1 min; is the arrival right?',
    ]);
    const german = said(run(TRIPS + ride('2026-10-05', '13:10', '12:50'), { language: 'de' }));
    assert.deepEqual(german, ['trips.csv:2: Warnung: dauert 23 h 40 min; stimmt die Ankunft?']);
});

test('an exact duplicate in one file, of two trips at one minute the right one', () => {
    const still = ride('2026-10-05', '08:00', '08:00');
    const other = still.replace('Hamm Hbf', 'Bielefeld Hbf');
    assert.deepEqual(warned(still, other, still, other, still), [
        '4: warning: the same trip as in line 2; entered twice?',
        '5: warning: the same trip as in line 3; entered twice?',
        '6: warning: the same trip as in line 2; entered twice?',
    ]);
    assert.deepEqual(warned(still, still.replace('Anna Berg', 'Cem')), []);
});

test('very many duplicates take no longer than their number', () => {
    const before = process.cpuUsage();
    const result = run(TRIPS + ride('2026-10-05', '08:00', '08:20').repeat(20000), { strict: true });
    assert.equal(result.errors, 19999);
    const { user, system } = process.cpuUsage(before);
    assert.ok(user + system < 3e6, `${user + system} microseconds`);
});

test('a year that no other day has', () => {
    const october = ['05', '06', '07'].map((day) => ride(`2026-10-${day}`, '08:00', '08:20'));
    const odd = (line, year) => `${line}: warning: there is no other day in the year ${year}; is the year right?`;
    assert.deepEqual(warned(...october, ride('2025-10-08', '08:00', '08:20')), [odd(5, 2025)]);
    const both = [ride('2062-10-08', '08:00', '08:20'), ride('2062-10-08', '16:00', '16:20')]; // there and back
    assert.deepEqual(warned(both[0], ...october, both[1]), [odd(2, 2062), odd(6, 2062)]);
    assert.deepEqual(warned(ride('2026-12-31', '23:00', '23:20'), ride('2027-01-01', '08:00', '08:20')), []);
    const days = ['08', '09'].map((day) => ride(`2025-10-${day}`, '08:00', '08:20'));
    assert.deepEqual(warned(...october, ...days), []);
});

test('a member whose name is near another’s: a letter, swapped names, an initial', () => {
    const near = (one, other) => {
        const finder = personFinder();
        finder.add('Jo Zander');
        finder.add(one);
        return finder.near(other) === one;
    };
    const alike = [
        ['Anna Berg', 'anna  berg'], ['Anna Berg', 'Ana Berg'], ['Anna Berg', 'Annna Berg'], ['Anna Berg', 'Anne Berg'],
        ['Anna Berg', 'Anan Berg'], ['Anna Berg', 'Berg Anna'], ['Anna Berg', 'A. Berg'], ['Anna Berg', 'A Berg'],
        ['Anna Berg', 'Anna B.'], ['Jürgen Groß', 'Juergen Gross'], ['Anna Berg', 'Berg, Anna'], ['Jan', 'Jana'],
    ];
    for (const [one, other] of alike) {
        assert.ok(near(one, other), `${one}, ${other}`);
        assert.ok(near(other, one), `${other}, ${one}`);
    }
    const apart = [
        ['Anna Berg', 'Arno Berg'], ['Anna Berg', 'Anna Bolte'], ['Crew 17', 'Crew 18'], ['Crew 1', 'Crew 11'],
        ['A', 'B'], ['Cem', 'Kim'], ['A. Berg', 'B. Berg'], ['Max', 'Mia'],
    ];
    for (const [one, other] of apart) assert.ok(!near(one, other) && !near(other, one), `${one}, ${other}`);
    assert.deepEqual(warned(ride('2026-10-05', '08:00', '08:20'), ride('2026-10-06', '08:00', '08:20', 'A. Berg')), [
        "3: warning: member 'A. Berg': the same person as 'Anna Berg' in line 2? They count as two",
    ]);
});

test('a member whose name is near one of the books', () => {
    const books = booksText(run(TRIPS + ride('2026-10-05', '08:00', '08:20'), { period: '2026-10' }));
    const next = run(TRIPS + ride('2026-11-05', '08:00', '08:20', 'Ana Berg'), { period: '2026-11', books });
    assert.deepEqual(said(next), [
        "trips.csv:2: warning: member 'Ana Berg': the same person as 'Anna Berg' in the books? They count as two",
    ]);
});

test('strict, warnings are errors, those of settling too, and nothing is priced', () => {
    const rides = TRIPS + ride('2026-10-05', '08:00', '08:20') + ride('2026-10-05', '08:10', '08:40');
    assert.deepEqual([run(rides).errors, run(rides).members.length], [0, 1]);
    const strict = run(rides, { strict: true });
    assert.deepEqual(said(strict), ['trips.csv:3: overlaps the trip in line 2; refused (10)']);
    assert.deepEqual([strict.errors, strict.warnings, strict.members, strict.wages], [1, 0, [], []]);
    const clean = run(TRIPS + ride('2026-10-05', '08:00', '08:20'), { strict: true });
    assert.deepEqual([clean.errors, clean.wages.length], [0, 1]);
});

test('the command’s --strict', () => {
    const words = ['wages', SAMPLE, '--strict', '--language', 'en'];
    const { status, stdout, stderr } = spawnSync(path.join(ROOT, 'milecopper'), words, { encoding: 'utf8' });
    assert.deepEqual([status, stdout], [2, '']);
    assert.match(stderr, /^trips\.csv:28: overlaps the trip in line 27; refused \(10\)$/m);
});
