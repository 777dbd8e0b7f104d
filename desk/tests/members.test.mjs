// members.csv: personnel numbers in the wages, and who is who.
import assert from 'node:assert/strict';
import { test } from 'node:test';
import { booksText } from '../books.mjs';
import { wagesText } from '../wages.mjs';
import { TRIPS, run, said } from './support.mjs';

const MEMBERS = 'number;name;email\n0017;Anna Berg;anna@example.org\n4711;Cem Yıldız;\n';
const trip = (member, day = '05') => `${member},2026-10-${day},08:00,08:20,Hamm Hbf,Hamm Betriebshof,,,,,,\n`;

test('members.csv: the wages have the personnel number behind the amount, as CSV and as JSON', () => {
    const trips = TRIPS + trip('Cem Yıldız') + trip('Anna Berg');
    const result = run(trips, { members: MEMBERS });
    assert.deepEqual(said(result), []);
    assert.equal(
        wagesText(result, 'csv', 'en'),
        'member,period,trips,refused,amount,number\n' +
            'Anna Berg,2026-10,1,0,2.00,0017\nCem Yıldız,2026-10,1,0,2.00,4711\n', // by name
    );
    assert.match(wagesText(result, 'csv', 'de'), /^\uFEFFmember;period;trips;refused;amount;number\n/);
    assert.deepEqual(
        JSON.parse(wagesText(result, 'json', 'en'))[0],
        { member: 'Anna Berg', period: '2026-10', trips: 1, refused: 0, cents: 200, number: '0017' },
    );
    assert.deepEqual(result.roster.get('Anna Berg'), { number: '0017', email: 'anna@example.org' });
});

test('without members.csv there is no such column', () => {
    const result = run(TRIPS + trip('Anna Berg'));
    assert.equal(wagesText(result, 'csv', 'en'), 'member,period,trips,refused,amount\nAnna Berg,2026-10,1,0,2.00\n');
    assert.deepEqual([result.roster, Object.hasOwn(result.wages[0], 'number')], [null, false]);
});

test('a name that is not in members.csv is an error with the near one, told once; nothing is priced', () => {
    const trips = TRIPS + trip('Anna Berg') + trip('Ana Berg', '06') + trip('Ana Berg', '07') + trip('Zoe', '08');
    const result = run(trips, { members: MEMBERS });
    assert.deepEqual(said(result), [
        "trips.csv:3: member 'Ana Berg': not in members.csv; did you mean 'Anna Berg'? (trips: 2, the first here)",
        "trips.csv:5: member 'Zoe': not in members.csv (trips: 1, the first here)",
    ]);
    assert.deepEqual(result.wages, []);
});

test('near names of members are those of persons: swapped, or with an initial', () => {
    const near = (name) => run(TRIPS + trip(name), { members: MEMBERS }).mistakes[0].values.near;
    const found = ['Berg Anna', 'A. Berg', 'Cem Yildiz', 'Dora'].map(near);
    assert.deepEqual(found, ['Anna Berg', 'Anna Berg', 'Cem Yıldız', null]);
});

test('a number or a name twice in members.csv, or an empty one, is an error', () => {
    const members = `${MEMBERS}17;Anna Berg;\n0017;Dora;\n;Emil;\n5;;\n`;
    assert.deepEqual(said(run(TRIPS + trip('Anna Berg'), { members })), [
        "members.csv:4: name 'Anna Berg': taken already in line 2",
        "members.csv:5: number '0017': taken already in line 2",
        'members.csv:6: number is empty',
        'members.csv:7: name is empty',
    ]);
    assert.deepEqual(said(run(TRIPS + trip('Anna Berg'), { members: 'name;email\nAnna Berg;\n' })), [
        "members.csv:1: the column 'number' is missing",
    ]);
});

test('members.csv settles who is who: two near names in it are two people, and no warning asks', () => {
    const trips = TRIPS + trip('Anna Berg') + trip('anna berg');
    assert.equal(run(trips).warnings, 1);
    const members = `${MEMBERS}18;anna berg;\n`;
    assert.deepEqual(said(run(trips, { members })), []);
    const books = booksText(run(TRIPS + trip('ANNA BERG'), { period: '2026-10' }));
    const next = TRIPS + trip('Anna Berg').replace('2026-10', '2026-11');
    assert.equal(run(next, { books, members }).mistakes[0].key, 'nearBook'); // nobody's name in members.csv
    assert.deepEqual(said(run(next, { books, members: `${members}19;ANNA BERG;\n` })), []);
});
