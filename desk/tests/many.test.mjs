// Many trips on the page: the work is done in a worker, the page can be used meanwhile, and a bar shows how far it is.
import assert from 'node:assert/strict';
import { writeFileSync } from 'node:fs';
import path from 'node:path';
import { after, before, test } from 'node:test';
import { AREAS, SETTLED, STOPS, cells, startPages, text } from './pages.mjs';
import { numbers, run, sample } from './support.mjs';

let desk;

before(async () => {
    desk = await startPages();
});
after(() => desk?.close());

const two = (number) => String(number).padStart(2, '0');

/** Trips of a month, three a day for each of the members. */
function manyTrips(members) {
    const stops = sample('stops.csv').trimEnd().split('\n').slice(1).map((line) => line.split(/[;,]/)[1]);
    const random = numbers(members);
    const stop = () => stops[random(stops.length)];
    const rows = Array.from({ length: 90 * members }, (_, i) => {
        const [day, hour] = [1 + (Math.floor(i / 3) % 30), 5 + 5 * (i % 3)];
        const times = `${two(hour)}:${two(random(30))};${two(hour)}:${two(40 + random(20))}`;
        return `Crew ${Math.floor(i / 90)};2026-09-${two(day)};${times};${stop()};${stop()}`;
    });
    return `member;date;depart;arrive;from;to\n${rows.join('\n')}\n`;
}

function written(members) {
    const file = path.join(desk.folder, `trips-${members}.csv`);
    writeFileSync(file, manyTrips(members));
    return file;
}

/** Notes how long the page was not free at a time, and what its bar showed. */
const WATCH = `window.watched = { halts: [], shown: [], begun: performance.now() };
    let last = performance.now();
    setInterval(() => {
        const bar = document.querySelector('#progress');
        window.watched.halts.push(performance.now() - last);
        last = performance.now();
        if (bar && !bar.hidden && bar.hasAttribute('value')) window.watched.shown.push(bar.value / bar.max);
    }, 10);`;

test('many trips: the page is free while they are priced, and a bar shows how far that is', async () => {
    const page = await desk.opened('', WATCH);
    const trips = written(1000);
    await page.ask('void Object.assign(window.watched, { halts: [], begun: performance.now() })');
    await page.choose('#choose-files', [AREAS, STOPS, trips]);
    await page.until(SETTLED);
    const { longest, whole, shown } = await page.ask(`({
        longest: Math.max(...window.watched.halts),
        whole: performance.now() - window.watched.begun,
        shown: window.watched.shown,
    })`);
    assert.ok(longest < 0.75 * whole, `not free for ${longest} of ${whole} ms`);
    assert.ok(new Set(shown).size >= 3, `the bar showed ${shown}`);
    assert.deepEqual(shown, [...shown].sort((one, other) => one - other));
    assert.ok(shown.at(-1) <= 1);
    assert.equal(await page.ask('document.querySelector("#progress").hidden'), true);
    assert.match(await text(page, '#status'), /^90000 Fahrten von 1000 Mitgliedern berechnet/);
    desk.quiet(page);
});

test('without a worker the page does the work itself, and it is the same', async () => {
    const trips = manyTrips(3);
    const result = run(trips, { period: '2026-09' });
    const due = result.wages.map(({ member, cents }) => [member, cents]);
    const failing = 'window.Worker = class { constructor() { throw new Error("none"); } }';
    for (const first of ['', 'delete window.Worker', failing]) {
        const page = await desk.opened('', first);
        assert.equal(await page.ask('document.body.dataset.work'), first === '' ? 'worker' : 'page');
        await page.choose('#choose-files', [AREAS, STOPS, written(3)]);
        await page.until(SETTLED);
        const rows = await cells(page, '#wages tbody tr');
        assert.deepEqual(rows.map((row) => [row[0], Number(row.at(-1).replace(/\D/g, ''))]), due, first);
        desk.quiet(page);
    }
});

test('what is dropped while trips are priced counts, and what came before does not', async () => {
    const page = await desk.opened();
    await page.choose('#choose-files', [AREAS, STOPS, written(200)]);
    await page.until('document.querySelector("#status").textContent === "Wird berechnet …"');
    await page.click('[data-remove="trips-200.csv"]');
    await page.choose('#choose-files', [written(2)]);
    await page.until(SETTLED);
    assert.match(await text(page, '#status'), /^180 Fahrten von 2 Mitgliedern/);
    await new Promise((done) => setTimeout(done, 500));
    assert.match(await text(page, '#status'), /^180 Fahrten von 2 Mitgliedern/);
});
