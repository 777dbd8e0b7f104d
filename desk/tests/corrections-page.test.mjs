// Corrections and supplements on the page: what is shown, what is saved, and books that are replaced.
import assert from 'node:assert/strict';
import { writeFileSync } from 'node:fs';
import path from 'node:path';
import { after, before, test } from 'node:test';
import { booksText } from '../books.mjs';
import { differencesText } from '../differences.mjs';
import { wagesText } from '../wages.mjs';
import { moneyText } from '../words.mjs';
import { AREAS, SETTLED, STOPS, TOO_WIDE, TRIPS, cells, expected, hidden } from './pages.mjs';
import { showsStatement, startPages, text } from './pages.mjs';
import { TRIPS as HEAD, run } from './support.mjs';

let desk;

before(async () => {
    desk = await startPages();
});
after(() => desk?.close());

function put(name, content) {
    writeFileSync(path.join(desk.folder, name), content);
    return path.join(desk.folder, name);
}

const euros = (cents) => moneyText(cents, 'de').replaceAll('\u00a0', ' ');
const LIST = '#differences tbody tr';
const SUPPLEMENTS = '#wages .changes tbody tr';

test('corrections: the status counts them, and the table has what they change, also as it is saved', async () => {
    const content = 'Zeile;streichen;Ankunft;Kinder\n3;;06:40;2\n4;ja;;\n';
    const page = await desk.opened();
    await page.choose('#choose-files', [AREAS, STOPS, TRIPS]);
    await page.until(SETTLED);
    assert.deepEqual(await hidden(page, 'corrections'), [true]);
    await page.choose('#choose-files', [put('corrections.csv', content)]);
    await page.until(`${SETTLED} && document.querySelector('${LIST}') !== null`);
    const result = expected({ corrections: content, correct: true });
    assert.match(await text(page, '#status'), /1 Fahrt wurde berichtigt\. 1 Fahrt wurde gestrichen\.$/);
    const shown = await cells(page, LIST);
    const amounts = ({ before: old, after: now, difference }) => [old, now, difference].map((cents) => euros(cents));
    assert.deepEqual(shown.map((row) => row.slice(2)), result.differences.map(amounts));
    assert.deepEqual(shown.at(-1), ['Anna Berg', 'Summe', '76,51 €', '92,76 €', '16,25 €']);
    const riders = ['Mitglied', 'Erwachsene/r 1', 'Kind 1', 'Kind 2', 'Fahrrad 1', 'Summe'];
    assert.deepEqual(shown.map(([, who]) => who), riders);
    assert.equal(
        await desk.saved(page, '[data-save=differences]', 'differences-2026-10.csv'),
        differencesText(result, 'csv', 'de'),
    );
    await showsStatement(page, 'Anna Berg', result);
    assert.match(await text(page, '#statement'), /8 Fahrten, 1 berichtigt, 1 gestrichen/);
    assert.deepEqual(await hidden(page, 'corrections', 'reopen'), [false, true]);
    await page.click('[data-language=en]');
    await page.until(`${SETTLED} && document.documentElement.lang === 'en'`);
    assert.match(await text(page, '#status'), /1 trip was corrected\. 1 trip was cancelled\.$/);
    assert.equal(await text(page, '#differences caption'), 'What the corrections change');
    await page.click('[data-remove="corrections.csv"]');
    await page.until(`${SETTLED} && document.querySelector('${LIST}') === null`);
    desk.quiet(page);
});

test('a file of corrections is known by its columns, and its mistakes stand beside its lines', async () => {
    const page = await desk.opened();
    const own = put('Nachweise.csv', 'line,cancel,depart\n99,yes,\n3,,7 Uhr\n');
    await page.choose('#choose-files', [AREAS, STOPS, TRIPS, own]);
    await page.until('!document.querySelector("#mistakes").hidden');
    assert.equal(await text(page, '#mistakes caption'), 'Nachweise.csv');
    assert.deepEqual(await cells(page, '#mistakes tbody tr'), [
        ['2', '99,yes,', "Fehler: line '99': in trips.csv steht dort keine Fahrt"],
        ['3', '3,,7 Uhr', "Fehler: depart '7 Uhr': keine Uhrzeit von 00:00 bis 23:59"],
    ]);
    assert.deepEqual(await hidden(page, 'result'), [true]);
    desk.quiet(page);
});

// ---- Supplements

const OCTOBER = 'Anna Berg,2026-10-31,22:40,23:55,Münster Hbf,Bielefeld Hbf,,,,,,\n';
const LATE = 'Anna Berg,2026-10-31,12:00,12:30,Hamm Hbf,Hamm Betriebshof,,,,,,\n';
const NOVEMBER = 'Anna Berg,2026-11-01,05:30,06:45,Bielefeld Hbf,Münster Hbf,,,,,,\n';

/** The page with October closed, and a trip of October that turned up behind it; and what the core makes of it. */
async function supplemented(options = {}) {
    const closed = booksText(run(HEAD + OCTOBER, { period: '2026-10' }));
    const trips = put('trips-nacht.csv', HEAD + OCTOBER + LATE + NOVEMBER);
    const page = await desk.opened();
    await page.choose('#choose-files', [AREAS, STOPS, trips, put('books-2026-10.json', closed)]);
    await page.until(`${SETTLED} && document.querySelector('${SUPPLEMENTS}') !== null`);
    const books = [{ name: 'books-2026-10.json', bytes: new TextEncoder().encode(closed) }];
    return { page, result: expected({ trips, period: '2026-11', books, correct: true, ...options }) };
}

test('a late trip of a closed month: a supplement of its own beneath the wages, also in what is saved', async () => {
    const { page, result } = await supplemented();
    assert.deepEqual(await cells(page, SUPPLEMENTS), [['Anna Berg', 'Nachtrag Oktober 2026', '1', '–', '2,00 €']]);
    assert.deepEqual(await cells(page, LIST), [
        ['Anna Berg Nachtrag Oktober 2026', 'Mitglied', '18,41 €', '20,41 €', '2,00 €'],
        ['Anna Berg Nachtrag Oktober 2026', 'Summe', '18,41 €', '20,41 €', '2,00 €'],
    ]);
    const saved = await desk.saved(page, '[data-save=wages]', 'wages-2026-11.csv');
    assert.equal(saved, wagesText(result, 'csv', 'de'));
    assert.match(saved, /^Anna Berg;2026-10;1;0;2,00;yes$/m);
    assert.match(await text(page, '#mistakes'), /Warnung: 'Anna Berg', nachgereicht oder geändert: .* als Nachtrag/);
    assert.match(await text(page, '#doubts'), /für Oktober 2026 gibt es einen Nachtrag/);
    assert.equal(await page.ask('document.querySelector("#close").disabled'), true);
    desk.quiet(page);
});

test('books that are replaced are saved, the month goes on from them, and the supplement comes once', async () => {
    const { page, result } = await supplemented({ reopen: true });
    const saved = await desk.saved(page, '#reopen', 'books-2026-10.json');
    assert.equal(saved, booksText(run(HEAD + OCTOBER + LATE, { period: '2026-10' })));
    await page.until(`${SETTLED} && document.querySelector('#reopen').disabled`);
    assert.match(await text(page, '#status'), /Bitte anstelle der bisherigen Bücher aufheben: books-2026-10\.json/);
    const [november] = await cells(page, '#wages tbody tr');
    assert.deepEqual(november, ['Anna Berg', '1', '–', '−13,82 €', '4,59 €']);
    const wages = await desk.saved(page, '[data-save=wages]', 'wages-2026-11.csv');
    assert.equal(wages, wagesText(result, 'csv', 'de'));
    assert.doesNotMatch(await text(page, '#doubts'), /Nachtrag/);
    assert.equal(await desk.saved(page, '#close', 'books-2026-11.json'), booksText(result));
    await page.until('document.querySelector("#period").value === "2026-12"');
    assert.equal(await page.ask(`document.querySelector('${SUPPLEMENTS}')`), null);
    assert.deepEqual(await hidden(page, 'mistakes'), [true]);
    desk.quiet(page);
});

test('where books would change for somebody else, they are not replaced, and the page says whose', async () => {
    const cem = OCTOBER.replace('Anna Berg', 'Cem');
    const closed = booksText(run(HEAD + OCTOBER + cem, { period: '2026-10' }));
    const trips = put('trips-ohne.csv', HEAD + OCTOBER + LATE + NOVEMBER);
    const page = await desk.opened();
    await page.choose('#choose-files', [AREAS, STOPS, trips, put('books-2026-10.json', closed)]);
    await page.until(`${SETTLED} && document.querySelector('${SUPPLEMENTS}') !== null`);
    await page.click('#reopen');
    await page.until('document.querySelector("#status").textContent.includes("Nicht ersetzt: in books-2026-10.json")');
    assert.match(await text(page, '#status'), /wäre auch Cem anders/);
    assert.equal(await page.ask('document.querySelector("#reopen").disabled'), false);
    desk.quiet(page);
});

test('at 390 px the tables of differences and supplements fit', async () => {
    const { page } = await supplemented();
    const phone = { width: 390, height: 844, deviceScaleFactor: 2, mobile: true };
    await page.send('Emulation.setDeviceMetricsOverride', phone);
    await page.until('innerWidth === 390');
    assert.deepEqual(await page.ask(TOO_WIDE), []);
});
