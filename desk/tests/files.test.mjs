// Files that are dropped on the page: which is which, and which are kept.
import assert from 'node:assert/strict';
import { test } from 'node:test';
import { deskFiles, linesOf, ofFolder, sortOf, withFile } from '../page/files.mjs';
import { sample } from './support.mjs';

const file = (name, text) => ({ name, bytes: new TextEncoder().encode(text) });

test('a file is known by its name', () => {
    const sorts = (...names) => names.map((name) => sortOf(file(name, '')));
    const known = sorts('areas.csv', 'Stops 2026.CSV', 'trips-oktober.csv', 'books-2026-09.json', 'members.csv');
    assert.deepEqual(known, ['areas', 'stops', 'trips', 'books', 'members']);
    const corrections = sorts('corrections.csv', 'Corrections 11.xlsx', 'corrected.csv');
    assert.deepEqual(corrections, ['corrections', 'corrections', null]);
    const others = sorts('notes.csv', 'trips.csv.bak', 'tripsters.csv', 'trips.pdf', '');
    assert.deepEqual(others, [null, null, null, null, null]);
});

test('and else by the columns that it names', () => {
    for (const sort of ['areas', 'stops', 'trips']) {
        assert.equal(sortOf(file('Tabelle 1.csv', `\uFEFF${sample(`${sort}.csv`).toUpperCase()}`)), sort);
    }
    assert.equal(sortOf(file('Stammdaten.csv', 'number;name;email')), 'members');
    assert.equal(sortOf(file('alt.json', '{"form": "milecopper books 1",')), 'books');
    assert.equal(sortOf(file('Nachweise.csv', 'Zeile;streichen;Abfahrt')), 'corrections');
    assert.equal(sortOf(file('charges.csv', 'member,line,check_in,check_out,corrected')), null);
    assert.equal(sortOf(file('x.csv', 'a;b\ndepart;x_m')), null);
});

test('lines are counted as the mistakes count them', () => {
    assert.deepEqual(linesOf(file('x', 'a\r\nb\n\rc')), ['a', 'b', '', 'c']);
});

test('a second file of trips is added; one of its name takes its place, and so does an area’s or stop’s', () => {
    const own = (sort, name, rest = {}) => ({ sort, name, bytes: new Uint8Array(), ...rest });
    const all = (...files) => files.reduce((kept, one) => withFile(kept, one).files, []);
    const names = (files) => files.map(({ name }) => name);
    const [october, late] = [own('trips', 'trips-10.csv'), own('trips', 'late.csv')];
    const kept = all(own('areas', 'areas.csv'), october, late, own('books', 'books-2026-09.json'));
    assert.deepEqual(names(kept), ['areas.csv', 'trips-10.csv', 'late.csv', 'books-2026-09.json']);
    const again = withFile(kept, own('trips', 'trips-10.csv', { rows: 3 }));
    assert.equal(again.replaced, october);
    assert.equal(again.files.length, 4);
    assert.equal(withFile(kept, own('areas', 'Gebiete.csv')).replaced.name, 'areas.csv');
    assert.equal(withFile(kept, own('trips', 'trips-11.csv')).replaced, null);
});

test('of areas and stops there is one of each edition, known by the day in its name', () => {
    const own = (name, rest = {}) => ({ sort: 'areas', name, bytes: new Uint8Array(), ...rest });
    const names = (files) => files.map(({ name }) => name);
    const both = withFile([own('areas.csv')], own('areas-2026-06-01.csv'));
    assert.deepEqual([names(both.files), both.replaced], [['areas.csv', 'areas-2026-06-01.csv'], null]);
    const again = withFile(both.files, own('areas-2026-06-01.xlsx'));
    assert.deepEqual(names(again.files), ['areas.csv', 'areas-2026-06-01.xlsx']);
    assert.equal(again.replaced.name, 'areas-2026-06-01.csv');
    assert.equal(withFile(both.files, own('Gebiete.csv')).replaced.name, 'areas.csv');
    const third = withFile(both.files, own('areas-2027-01-01.csv')); // which is a mistake, and told as one
    assert.deepEqual([third.files.length, third.replaced], [3, null]);
    assert.equal(sortOf(own('stops-2026-06-01.csv')), 'stops');
});

test('of a folder its own files, and a workbook only where it is not there as CSV, too', () => {
    const names = ['trips.csv', 'Trips.xlsx', 'stops.xlsx', 'notes.txt', 'old/areas.csv', 'books-2026-09.json'];
    const files = names.map((name) => ({ name: name.split('/').at(-1), webkitRelativePath: `Oktober/${name}` }));
    const due = ['trips.csv', 'stops.xlsx', 'books-2026-09.json'];
    assert.deepEqual(ofFolder(files).map(({ name }) => name), due);
});

test('what is someone’s own takes the sample’s place, sort by sort', () => {
    const own = (sort, name, sample) => ({ sort, name, bytes: new Uint8Array(), sample });
    const sampled = [own('areas', 'areas.csv', true), own('stops', 'stops.csv', true), own('trips', 'trips.csv', true)];
    const { files, replaced } = withFile(sampled, own('trips', 'October.csv'));
    assert.deepEqual(files.map(({ name }) => name), ['areas.csv', 'stops.csv', 'October.csv']);
    assert.equal(replaced, null);
});

test('the desk is given areas, stops, trips and books by their names, and of members the one', () => {
    const own = (sort, name) => ({ ...file(name, name), sort, rows: 1 });
    const all = [own('trips', 'b.csv'), own('stops', 's.csv'), own('trips', 'a.csv'), own('members', 'm.csv')];
    const given = deskFiles(all);
    assert.deepEqual(given.trips.map(({ name }) => name), ['a.csv', 'b.csv']);
    for (const one of [...given.stops, given.members]) assert.deepEqual(Object.keys(one), ['name', 'bytes']);
    assert.deepEqual([given.areas, given.books], [[], []]);
    assert.equal(deskFiles([]).members, undefined);
});
