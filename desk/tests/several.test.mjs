// Several files of trips are taken together: by the core and by the command.
import assert from 'node:assert/strict';
import { spawnSync } from 'node:child_process';
import fs from 'node:fs';
import os from 'node:os';
import path from 'node:path';
import { test } from 'node:test';
import { statementText } from '../statement.mjs';
import { chargesText } from '../wages.mjs';
import { ROOT, SAMPLE, TRIPS, run, said, sample } from './support.mjs';

const ride = (date, depart, arrive, rest = ',,,,,') =>
    `Anna Berg,${date},${depart},${arrive},Münster Hbf,Hamm Hbf,${rest}\n`;
const named = (name, text) => ({ name, bytes: new TextEncoder().encode(text) });
const file = (name, ...rides) => named(name, TRIPS + rides.join(''));
const placesOf = ({ entries }) => entries.map((entry) => `${entry.file}:${entry.line}`);

test('several files of trips give what one with all rows gives', () => {
    const rows = sample('trips.csv').trimEnd().split('\n');
    const part = (name, from, to) => named(name, [rows[0], ...rows.slice(from, to)].join('\n'));
    const whole = run(sample('trips.csv'));
    const parts = run([part('one.csv', 1, 12), part('two.csv', 12, 20), part('three.csv', 20)]);
    assert.deepEqual(parts.wages, whole.wages);
    assert.deepEqual(parts.tripFiles, ['one.csv', 'two.csv', 'three.csv']);
    assert.deepEqual(whole.tripFiles, ['trips.csv']);
    assert.deepEqual(run([]).mistakes, run(undefined).mistakes);
});

test('trips are taken by check-in, then in the order of the files, then by line', () => {
    const still = ride('2026-10-05', '08:00', '08:00'); // none of these is in the way of another
    const to = (stop) => still.replace('Hamm Hbf', stop);
    const one = file('one.csv', ride('2026-10-06', '08:00', '08:20'), still, to('Bielefeld Hbf'));
    const two = file('two.csv', to('Bielefeld Rathaus'), ride('2026-10-04', '08:00', '08:20'));
    const order = (...files) => placesOf(run(files).members[0]);
    assert.deepEqual(order(one, two), ['two.csv:3', 'one.csv:3', 'one.csv:4', 'two.csv:2', 'one.csv:2']);
    assert.deepEqual(order(two, one), ['two.csv:3', 'two.csv:2', 'one.csv:3', 'one.csv:4', 'one.csv:2']);
});

test('equal rows in two files are told, with both places, however they are written', () => {
    const other = (rest) => ride('2026-10-06', '08:00', '08:20', rest);
    const one = file('one.csv', ride('2026-10-05', '08:00', '08:20'), other(',1,,1,,'));
    const two = file('two.csv', ride('5.10.2026', '8:00', '8:20', ',2,,0,,'), other(',1,,,,'));
    assert.deepEqual(said(run([one, two])), [
        'two.csv:2: warning: the same trip as in one.csv:2; entered twice?',
        'two.csv:2: warning: overlaps the trip in one.csv:2; refused (10)',
        'two.csv:3: warning: overlaps the trip in one.csv:3; refused (10)',
    ]);
    const german = said(run([one, two], { language: 'de' }));
    assert.equal(german[0], 'two.csv:2: Warnung: dieselbe Fahrt wie in one.csv:2; doppelt eingetragen?');
});

test('mistakes name their file, file by file in the order given', () => {
    const bad = ride('2026-10-05', '8 o’clock', '08:20');
    const [one, two] = [file('z.csv', bad), file('a.csv', bad)];
    assert.deepEqual(
        run([one, two]).mistakes.map(({ file: name, line }) => [name, line]),
        [['z.csv', 2], ['a.csv', 2]],
    );
    const { tripFiles } = run([file('t.csv', bad), file('t.csv', bad)]);
    assert.deepEqual(tripFiles, ['t.csv', 't.csv (2)']);
});

test('where there are several, charges and statements name the file beside the line; else not', () => {
    const [early, late] = [ride('2026-10-05', '08:00', '09:00'), ride('2026-10-05', '08:30', '09:30')];
    const two = run([file('one.csv', early), file('two.csv', late)]);
    assert.match(chargesText(two, 'csv', 'en'), /^file,member,line,.*\none\.csv,Anna Berg,2,.*\ntwo\.csv,Anna Berg,2,/);
    assert.equal(two.charges[1].file, 'two.csv');
    assert.match(statementText(two.members[0], two, 'de'), /\(Zeile 2 von\s+two\.csv\)/);
    const one = run(TRIPS + early + late);
    assert.match(chargesText(one, 'csv', 'en'), /^member,line,.*\nAnna Berg,2,.*\nAnna Berg,3,/);
    assert.match(statementText(one.members[0], one, 'en'), /\(line 3 of the trips\)/);
});

test('the command takes every trips*.csv of the folder, or --trips more than once', (context) => {
    const room = fs.mkdtempSync(path.join(os.tmpdir(), 'several-'));
    context.after(() => fs.rmSync(room, { recursive: true }));
    const program = path.join(ROOT, 'milecopper');
    const called = (...words) => spawnSync(program, [...words, '--language', 'en'], { cwd: room, encoding: 'utf8' });
    for (const name of ['areas.csv', 'stops.csv']) fs.copyFileSync(path.join(SAMPLE, name), path.join(room, name));
    const put = (name, ...rides) => fs.writeFileSync(path.join(room, name), TRIPS + rides.join(''));
    put('trips-b.csv', ride('2026-10-05', '08:00', '08:20'));
    put('Trips-a.CSV', ride('2026-10-06', '08:00', '08:20'));
    put('more.csv', ride('2026-10-07', '08:00', '08:20'));
    const folder = called('check', '.');
    assert.deepEqual([folder.stderr, folder.status], ['./milecopper: trips: Trips-a.CSV, trips-b.csv\n', 0]);
    assert.match(folder.stdout, /trips priced: 2/);
    const named = called('wages', '--trips', 'more.csv', '--trips', 'trips-b.csv');
    assert.equal(named.stdout, 'member,period,trips,refused,amount\nAnna Berg,2026-10,2,0,21.16\n');
    fs.mkdirSync(path.join(room, 'deep'));
    fs.copyFileSync(path.join(room, 'more.csv'), path.join(room, 'deep/more.csv'));
    const twice = called('check', '--trips', 'more.csv', '--trips', 'deep/more.csv');
    assert.match(twice.stdout, /^deep\/more\.csv:2: warning: the same trip as in more\.csv:2; entered twice\?$/m);
});
