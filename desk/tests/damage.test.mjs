// Files that were damaged anyhow: there is always an answer, told by file and line. With an error nothing is
// priced.
import assert from 'node:assert/strict';
import { test } from 'node:test';
import { booksText } from '../books.mjs';
import { both } from './rheinland.mjs';
import { numbers, run, sample } from './support.mjs';

const text = (name) => new TextEncoder().encode(sample(name));

/** Some bytes changed, cut out or doubled. */
function damaged(bytes, below) {
    const out = [...bytes];
    for (let i = 0; i <= below(4); i += 1) {
        const at = below(out.length);
        const signs = [...new TextEncoder().encode('"\n\r;,|:.-+0189KX \0'), 0xc3, 0xff];
        if (below(3) === 0) out.splice(at, below(30));
        else if (below(2) === 0) out.splice(at, 0, ...out.slice(at, at + below(30)));
        else out[at] = signs[below(signs.length)];
    }
    return Uint8Array.from(out);
}

/** Runs the desk on files of which one after another is damaged, and answers how many runs found an error. */
function errorsAmong(good, times, options = {}) {
    const below = numbers(7);
    let wrong = 0;
    for (let i = 0; i < times; i += 1) {
        const files = good.map((file, at) => (at === i % good.length ? damagedFile(file, below) : file));
        const of = (sort) => files.filter((file) => file.sort === sort);
        const tariff = { areas: of('areas'), stops: of('stops') };
        const result = run(of('trips'), { ...tariff, books: of('books')[0], ...options });
        for (const { file, line, text: words } of result.mistakes) {
            assert.ok(file.length > 0 && Number.isInteger(line) && line >= 1, file);
            assert.ok(words.length > 0 && !words.includes('undefined'), words);
        }
        if (result.errors === 0) continue;
        wrong += 1;
        assert.deepEqual([result.members, result.wages, result.charges], [[], [], []]);
    }
    return wrong;
}

const damagedFile = (file, below) => ({ ...file, bytes: damaged(file.bytes, below) });

const TABLES = ['areas', 'stops', 'trips'].map((sort) => ({ sort, name: `${sort}.csv`, bytes: text(`${sort}.csv`) }));

const booksOf = (options) => {
    const bytes = new TextEncoder().encode(booksText(run(sample('trips.csv'), { period: '2026-10', ...options })));
    return { sort: 'books', name: 'books.json', bytes };
};

test('damaged files', () => {
    const wrong = errorsAmong([...TABLES, booksOf({})], 400);
    assert.ok(wrong > 200, `${wrong}`);
});

test('damaged files under a monthly ceiling', () => {
    const wrong = errorsAmong([...TABLES, booksOf({ ceiling: 3000 })], 240, { ceiling: 3000 });
    assert.ok(wrong > 120, `${wrong}`);
});

test('damaged files of two editions', () => {
    const { areas, stops } = both();
    const moved = sample('trips.csv').replaceAll('2026-10-', '2026-06-').replaceAll('2026-11-', '2026-07-');
    const trips = moved.replace(/.*(Setterich|\+02:00|;02:55).*\n/g, '');
    const books = new TextEncoder().encode(booksText(run(trips, { areas, stops, period: '2026-06' })));
    const sorted = (sort, files) => files.map((file) => ({ ...file, sort }));
    const given = [{ name: 'trips.csv', bytes: new TextEncoder().encode(trips) }];
    const good = [...sorted('areas', areas), ...sorted('stops', stops), ...sorted('trips', given)];
    const wrong = errorsAmong([...good, { sort: 'books', name: 'books.json', bytes: books }], 240);
    assert.ok(wrong > 120, `${wrong}`);
});
