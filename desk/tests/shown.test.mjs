// The picture of a statement in the README is what the desk makes of its sample.
import assert from 'node:assert/strict';
import fs from 'node:fs';
import path from 'node:path';
import { test } from 'node:test';
import { shownStatement } from '../shown.mjs';
import { ROOT, engine } from './support.mjs';

const read = (name) => fs.readFileSync(path.join(ROOT, name), 'utf8');

test('docs/statement.svg is up to date; host/pictures makes it', () => {
    assert.equal(read('docs/statement.svg'), shownStatement(engine, read));
});

test('the picture changes with the sample', () => {
    const later = (name) => read(name).replace('2026-10-02;05:41;06:52', '2026-10-02;05:41;06:53');
    assert.notEqual(later('desk/sample/trips.csv'), read('desk/sample/trips.csv'));
    assert.notEqual(shownStatement(engine, later), shownStatement(engine, read));
});

test('what the README says beneath the picture stands in it', () => {
    const said = read('README.md').split('(docs/statement.svg)')[1].split('\n\n')[1];
    const amounts = said.match(/€\d+\.\d\d/g);
    assert.equal(amounts.length, 2);
    for (const amount of amounts) assert.ok(read('docs/statement.svg').includes(`>${amount}</text>`), amount);
});
