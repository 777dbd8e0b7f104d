// What spreadsheets and people write: German names of columns, and rows that are longer or shorter than the header.
import assert from 'node:assert/strict';
import fs from 'node:fs';
import path from 'node:path';
import { test } from 'node:test';
import { GERMAN } from '../columns.mjs';
import { sortOf } from '../page/files.mjs';
import { AREA_COLUMNS, STOP_COLUMNS } from '../tariff.mjs';
import { TRIP_COLUMNS } from '../trips.mjs';
import { ROOT, TRIPS, run, said, sample } from './support.mjs';

/** A text's header with German names: the nth that each column has. */
function germanized(text, nth = 0) {
    const [header, ...rows] = text.split('\n');
    const names = header.split(';').map((column) => GERMAN[column]?.at(nth) ?? column);
    return [names.join(';'), ...rows].join('\n');
}

const sampleIn = (nth) => ['areas', 'stops', 'trips'].map((sort) => germanized(sample(`${sort}.csv`), nth));

test('German names of columns, whatever their capitals, umlauts and signs', () => {
    const due = run(sample('trips.csv'));
    const level = (text) => text.replace('Preisstufe', 'Ebene');
    const [areas, stops, trips] = sampleIn(0);
    const german = run(trips, { areas: level(areas), stops });
    assert.deepEqual([said(german), german.wages, german.tariff.hash], [said(due), due.wages, due.tariff.hash]);
    const loud = run(trips.replace(/^.*/, (header) => header.toUpperCase().replace('Ü', 'UE')), { areas, stops });
    assert.deepEqual(loud.wages, due.wages);
    const [, , others] = sampleIn(-1);
    assert.deepEqual(run(others.replace('Ebene', 'Preisstufe')).wages, due.wages);
});

test('German names that are misspelt, missing or there twice are told', () => {
    const header = 'Mitglied;Datum;Abfart;Ankunft;von;nach;Klasse;class;Notiz\n';
    assert.deepEqual(said(run(header)), [
        "trips.csv:1: the column 'class' is there twice",
        "trips.csv:1: column 'Abfart': no such column; did you mean 'Abfahrt'?",
        "trips.csv:1: warning: column 'Notiz': unknown, ignored",
    ]);
    assert.deepEqual(said(run('Mitglied;Datum;Abfahrt;von;nach;Preis\n')), [
        "trips.csv:1: warning: column 'Preis': unknown, ignored",
        "trips.csv:1: the column 'arrive' is missing",
    ]);
});

test("DESK.md's table has the German names of the columns", () => {
    const page = fs.readFileSync(path.join(ROOT, 'docs/DESK.md'), 'utf8');
    const rows = [...page.matchAll(/^\| `(\w+)` \| (.*) \|$/gm)];
    assert.deepEqual(Object.fromEntries(rows.map(([, column, names]) => [column, names.split(', ')])), GERMAN);
    const columns = Object.keys({ ...TRIP_COLUMNS, ...STOP_COLUMNS, ...AREA_COLUMNS });
    for (const column of columns) assert.ok(column === 'name' || GERMAN[column]?.length > 0, column);
});

test('a file with German columns is known by them', () => {
    const bytes = (text) => new TextEncoder().encode(text);
    const sorts = sampleIn(0).map((text) => sortOf({ name: 'Tabelle 1.csv', bytes: bytes(text) }));
    assert.deepEqual(sorts, ['areas', 'stops', 'trips']);
    assert.equal(sortOf({ name: 'x.csv', bytes: bytes(`sep=;\n${sample('stops.csv')}`) }), 'stops');
});

test('empty cells behind the last column, in the header or in rows, and rows that leave out empty ones', () => {
    const due = run(sample('trips.csv')).wages;
    const longer = sample('trips.csv').replace(/$/gm, ';;').replace(/\n;;$/, '\n');
    assert.deepEqual([run(longer).wages, run(longer).warnings], [due, run(sample('trips.csv')).warnings]);
    assert.deepEqual(run(longer.replace(/;;$/m, '')).wages, due); // the header without them
    assert.deepEqual(run(sample('trips.csv').replace(/;+$/gm, '')).wages, due);
    assert.deepEqual(run(sample('trips.csv'), { areas: sample('areas.csv').replace(/;+$/gm, '') }).wages, due);
});

test('a row with more than the header names, or without a column that is due, is told', () => {
    const ride = 'Anna,2026-10-31,23:50,00:21,Münster Hbf,Hamm Hbf';
    const rows = `${ride}\n${ride.replace(/,[^,]*$/, '')}\n${ride},,,,,,,\n`;
    const quotes = 'a comma within a field needs quotation marks';
    const fields = (found) => `${found} fields instead of 12 as in the header; ${quotes}`;
    assert.deepEqual(said(run(TRIPS + rows)), [`trips.csv:3: ${fields(5)}`, `trips.csv:4: ${fields(13)}`]);
    assert.deepEqual(said(run(`${TRIPS}${ride},,,,,,,x\n`.replaceAll(',', ';'))), [`trips.csv:2: ${fields(13)}`]);
});

test("times and dates as people write them are the same trip", () => {
    const ride = (date, depart, arrive) => run(`${TRIPS}Anna,${date},${depart},${arrive},Münster Hbf,Hamm Hbf\n`);
    const due = ride('2026-10-02', '05:08', '05:58').charges;
    for (const words of [['02.10.26', '5.08', '5.58'], ['2.10.2026', '0508', '558'], ['2.10.26', '5:08', '05:58:00']]) {
        assert.deepEqual(ride(...words).charges, due, words.join(' '));
    }
});

test('tabs, and a first line sep=;', () => {
    const due = run(sample('trips.csv'));
    assert.deepEqual(run(sample('trips.csv').replaceAll(';', '\t')).wages, due.wages);
    const told = run(`sep=;\n${sample('trips.csv')}`);
    assert.deepEqual(told.wages, due.wages);
    assert.equal(told.mistakes[0].line, due.mistakes[0].line + 1);
});
