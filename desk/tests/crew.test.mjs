// The crew of 21, October 2026 and the first days of November (crew.mjs makes it): what closing October and going on
// gives each member is what all trips give at once from a fresh start, and what the plain implementation of the rules
// gives (host/src/model).
import assert from 'node:assert/strict';
import fs from 'node:fs';
import path from 'node:path';
import { test } from 'node:test';
import { booksName, booksText } from '../books.mjs';
import { agreeStatements } from '../statement.mjs';
import { wagesText } from '../wages.mjs';
import { CREW, crewFiles } from './crew.mjs';
import { deskLines, rollLines } from './rolls.mjs';
import { ROOT, run } from './support.mjs';

const crew = (name) => fs.readFileSync(path.join(CREW, name), 'utf8');
const members = crew('members.csv');
const [header, ...rows] = crew('trips.csv').trimEnd().split('\n');
const file = (name, lines) => ({ name, bytes: new TextEncoder().encode(`${[header, ...lines].join('\n')}\n`) });
const [october, november] = ['2026-10', '2026-11'].map((month) => {
    return file(`trips-${month}.csv`, rows.filter((row) => row.includes(`;${month}-`)));
});
const today = '2026-12-01';
const wages = ({ wages: own }) => own.map((row) => Object.values(row).join(' ')).sort();
const total = ({ wages: own }) => own.reduce((sum, { cents }) => sum + cents, 0);
const keys = ({ mistakes }) => mistakes.map(({ key }) => key);

/** All trips at once, from a fresh start. */
const atOnce = run([october, november], { members, today });

/** October closed, and November from its books alone. */
function closedAndGoneOn() {
    const first = run([october], { members, today, period: '2026-10' });
    const books = [{ name: booksName('2026-10'), bytes: new TextEncoder().encode(booksText(first)) }];
    return { first, books, second: run([november], { members, today, period: 'open', books }) };
}

test('the crew is what its script makes: 21 members, about 950 trips, nights and both October hours', () => {
    for (const [name, text] of Object.entries(crewFiles())) assert.equal(crew(name), text, name);
    assert.deepEqual([atOnce.members.length, atOnce.errors, atOnce.refused], [21, 0, 2]);
    assert.ok(rows.length > 930 && rows.length < 970, `${rows.length} trips`);
    const entries = atOnce.members.flatMap((member) => member.entries);
    const inTheHour = ({ local, offset }, due) => local.startsWith('2026-10-25T02') && offset === due;
    const hours = ['+02:00', '+01:00'].map((due) => entries.filter(({ checkIn }) => inTheHour(checkIn, due)).length);
    assert.ok(Math.min(...hours) >= 3, String(hours));
    const windows = atOnce.members.flatMap((member) => member.windows);
    const over = windows.filter((window) => new Set(window.entries.map(({ month }) => month)).size === 2);
    assert.ok(over.length >= 4, `${over.length} windows over the month's end`);
    const cut = entries.filter(({ parts = [] }) => parts.some(({ riders }) => riders.some(({ cap }) => cap)));
    assert.ok(cut.length >= 100, `${cut.length} trips are cut by a cap`);
});

test('the crew of 21: closing October and going on comes to what all trips at once come to', () => {
    const { first, books, second } = closedAndGoneOn();
    assert.deepEqual([first.closing, second.closing, second.period], [[], [], '2026-11']);
    assert.deepEqual([...wages(first), ...wages(second)].sort(), wages(atOnce));
    const whole = run([october, november], { members, today, period: '2026-11', books });
    assert.deepEqual([wages(whole), keys(whole)], [wages(second), []]); // October's trips are known, and not told
    const words = (result) => JSON.parse(booksText(result)).members.map((own) => [own.member, own.words]).sort();
    assert.deepEqual(words(second), words(run([october, november], { members, today, period: '2026-11' })));
    for (const result of [first, second, whole, atOnce]) agreeStatements(result);
    assert.match(wagesText(second, 'csv', 'de'), /^Anke Reimers;2026-11;\d+;0;\d+,\d\d;004711$/m);
});

test('the crew of 21: November alone would cost more, and is told', () => {
    const { second } = closedAndGoneOn();
    const alone = run([november], { members, today, period: '2026-11' });
    assert.ok(total(alone) > total(second), `${total(alone)} and ${total(second)} cents`);
    assert.deepEqual([keys(alone), keys(second)], [['lostWindows'], []]);
    const { names } = alone.mistakes[0].values;
    const rows = (result) => new Map(result.wages.map(({ member, cents }) => [member, cents]));
    const due = rows(second);
    for (const [member, cents] of rows(alone)) assert.ok(cents === due.get(member) || names.includes(member), member);
});

test('the crew of 21: a late trip and a changed one are the only ones that are told', () => {
    const { books } = closedAndGoneOn();
    const late = 'Elif Demir;2026-10-12;12:00;12:30;Hamm Hbf;Hamm Betriebshof;;;;;;';
    const lines = rows.filter((row) => row.includes(';2026-10-'));
    const changed = lines.findIndex((row) => row.startsWith('Ute Kleinhans;2026-10-2'));
    const cells = lines[changed].split(';');
    lines[changed] = cells.with(header.split(';').indexOf('adults'), '2').join(';');
    const result = run([file('a.csv', [...lines, late]), november], { members, today, books, period: '2026-11' });
    assert.deepEqual(
        result.mistakes.map(({ key, line, values }) => [key, line, values.member]),
        [['lateTrip', changed + 2, 'Ute Kleinhans'], ['lateTrip', lines.length + 2, 'Elif Demir']],
    );
});

const MODEL = path.join(ROOT, 'host/target/release/model_roll');
const skip = fs.existsSync(MODEL) ? false : `${MODEL} is not built (cargo build --release, in host)`;

test('the crew of 21: each charge is that of the plain implementation of the rules', { skip }, () => {
    for (const member of atOnce.members) {
        const due = rollLines(MODEL, ['tariff.bin', 'roll.bin'], atOnce.tariff.bytes, member.entries);
        assert.deepEqual(deskLines(member), due, member.name);
    }
});
