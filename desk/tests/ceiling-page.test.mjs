// A monthly ceiling on the page: its field, the members' table, the statement, what is saved, and what is remembered.
import assert from 'node:assert/strict';
import { writeFileSync } from 'node:fs';
import path from 'node:path';
import { after, before, test } from 'node:test';
import { booksText } from '../books.mjs';
import { memberDocument, statementsDocument } from '../sheets.mjs';
import { chargesText, wagesText } from '../wages.mjs';
import { AREAS, CSS, SETTLED, STOPS, TOO_WIDE, TRIPS, cells, chooseMonth, expected, hidden, letter } from './pages.mjs';
import { showsStatement, startPages, text } from './pages.mjs';

let desk;

before(async () => {
    desk = await startPages();
});
after(() => desk?.close());

const CEILING = 7200;
const HINT = 'Betrag ist, was eingezogen wird: im Monat höchstens 72,00 €. Monate sind die der Weltzeit (UTC).';

/** Writes into the field, as somebody does. */
async function limit(page, value) {
    await page.ask(`(() => {
        const field = document.querySelector('#ceiling');
        field.value = ${JSON.stringify(value)};
        field.dispatchEvent(new Event('change'));
    })()`);
}

const fieldOf = (page) => page.ask('document.querySelector("#ceiling").value');
const invalid = (page) => page.ask('document.querySelector("#ceiling").getAttribute("aria-invalid")');
const limited = (page) => page.until(`${SETTLED} && document.querySelector('#wages .charged') !== null`);

function put(name, content) {
    writeFileSync(path.join(desk.folder, name), content);
    return path.join(desk.folder, name);
}

test('the field limits what is collected: table, statement and all that is saved are those of the core', async () => {
    const page = await desk.opened('#try');
    assert.equal(await page.ask('document.querySelector("#wages .charged")'), null);
    await limit(page, '72,00');
    await limited(page);
    const result = expected({ ceiling: CEILING });
    assert.deepEqual(await cells(page, '#wages tbody tr'), [
        ['Anna Berg', '9', '–', '−18,96 €', '72,00 €', '76,51 €'],
        ['Cem Yıldız', '7', '1', '–', '70,58 €', '70,58 €'],
        ['Jonas Kröger', '7', '1', '–', '45,04 €', '45,04 €'],
        ['Marta Nowak', '6', '–', '−83,58 €', '72,00 €', '123,90 €'],
    ]);
    assert.deepEqual(await cells(page, '#wages tfoot tr'), [
        ['Zusammen', '29', '2', '−102,54 €', '259,62 €', '316,03 €'],
    ]);
    assert.equal(await text(page, '#wages p'), HINT);
    await showsStatement(page, 'Anna Berg', result);
    const ending = /Berechnet im Oktober 2026 \(UTC\)76,51 €\s*Monatsdeckel72,00 €\s*Eingezogen72,00 €$/;
    assert.match(await text(page, '#statement .ending'), ending);
    const [anna] = result.members;
    const saved = {
        'wages-2026-10.csv': ['[data-save=wages]', wagesText(result, 'csv', 'de')],
        'charges-2026-10.csv': ['[data-save=charges]', chargesText(result, 'csv', 'de')],
        'statements-2026-10.html': ['[data-save=statements]', statementsDocument(result, 'de', CSS, letter())],
        'Anna-Berg-2026-10.html': ['[data-save=file]', memberDocument(anna, result, 'de', CSS, letter())],
    };
    for (const [name, [selector, due]] of Object.entries(saved)) {
        assert.equal(await desk.saved(page, selector, name), due, name);
    }
    desk.quiet(page);
});

test('all months are called UTC’s, and the words are English where the page is', async () => {
    const page = await desk.opened('#try');
    await limit(page, '72');
    await limited(page);
    await chooseMonth(page, '');
    assert.equal(await text(page, '#wages th.period'), 'Monat (UTC)');
    assert.equal(await text(page, '.limit span'), 'Monatsdeckel');
    assert.match(await text(page, '#ceiling-hint'), /Weltzeit \(UTC\)/);
    await page.click('[data-language=en]');
    await page.until(`${SETTLED} && document.documentElement.lang === 'en'`);
    assert.deepEqual(await cells(page, '#wages thead tr'), [
        ['Member', 'Month (UTC)', 'Trips', 'Refused', 'Taken off', 'Amount', 'Charged'],
    ]);
    assert.equal(await text(page, '.limit span'), 'Monthly ceiling');
    assert.match(await text(page, '#ceiling-hint'), /months are those of UTC/);
    await showsStatement(page, 'Anna Berg', expected({ period: null, ceiling: CEILING, language: 'en' }), 'en');
    desk.quiet(page);
});

test('what is no amount is told in words and nothing is priced; mended or emptied, it goes on', async () => {
    const page = await desk.opened('#try');
    for (const value of ['abc', '-1', '10000,01']) {
        await limit(page, value);
        const due = `Monatsdeckel '${value}': kein Betrag in Euro von 0,00 bis 10000,00`;
        await page.until(`document.querySelector('#status').textContent === ${JSON.stringify(due)}`);
        assert.deepEqual(await hidden(page, 'month', 'result', 'one'), [true, true, true]);
        assert.equal(await invalid(page), 'true');
    }
    await page.click('[data-language=en]');
    const due = "Monthly ceiling '10000,01': not an amount in euros from 0.00 to 10000.00";
    await page.until(`document.querySelector('#status').textContent === ${JSON.stringify(due)}`);
    await limit(page, '0');
    await limited(page);
    assert.equal(await invalid(page), 'false');
    assert.deepEqual((await cells(page, '#wages tfoot tr'))[0].slice(-2), ['€0.00', '€316.03']);
    await limit(page, ' ');
    await page.until(`${SETTLED} && document.querySelector('#wages .charged') === null`);
    await showsStatement(page, 'Anna Berg', expected({ language: 'en' }), 'en');
    desk.quiet(page);
});

test('the books remember the ceiling: closing goes on with it, and so does who opens them', async () => {
    const page = await desk.opened('#try');
    await limit(page, '72,00');
    await limited(page);
    const books = await desk.saved(page, '#close', 'books-2026-10.json');
    assert.equal(books, booksText({ ...expected({ ceiling: CEILING }), association: { name: '', contact: '' } }));
    await page.until(`${SETTLED} && document.querySelector('#period').value === '2026-11'`);
    const result = expected({ period: '2026-11', ceiling: CEILING, books });
    await showsStatement(page, 'Anna Berg', result);
    const next = await desk.opened();
    await next.choose('#choose-files', [AREAS, STOPS, TRIPS, path.join(desk.folder, 'saved/books-2026-10.json')]);
    await limited(next);
    assert.equal(await fieldOf(next), '72,00');
    await showsStatement(next, 'Anna Berg', result);
    await limit(next, ''); // she means it: then books and trips do not fit, which is told
    await next.until('document.querySelector("#mistakes-lists").textContent.includes("würde zweimal berechnet")');
    assert.deepEqual(await hidden(next, 'result'), [true]);
    await next.click('#forget');
    assert.deepEqual([await fieldOf(next), await invalid(next)], ['', 'false']);
    desk.quiet(next);
});

test('books whose months go by the wall are told beside a ceiling, and taken without one', async () => {
    const books = put('books-2026-10.json', booksText(expected()));
    const page = await desk.opened();
    await limit(page, '150');
    await page.choose('#choose-files', [AREAS, STOPS, TRIPS, books]);
    await page.until('document.querySelector("#mistakes-lists").textContent.includes("fiele zwischen beide Monate")');
    assert.deepEqual(await hidden(page, 'result'), [true]);
    await limit(page, '');
    await page.until(`${SETTLED} && document.querySelector('#period').value === '2026-11'`);
    assert.equal(await page.ask('document.querySelector("#wages .charged")'), null);
    desk.quiet(page);
});

test('a narrow screen has field and table in full, and paper the ending', async () => {
    const page = await desk.opened('#try');
    await limit(page, '72,00');
    await limited(page);
    const screen = { width: 390, height: 800, deviceScaleFactor: 1, mobile: true };
    await page.send('Emulation.setDeviceMetricsOverride', screen);
    assert.deepEqual(await page.ask(TOO_WIDE), []);
    await page.send('Emulation.setEmulatedMedia', { media: 'print' });
    assert.deepEqual(await page.ask(`[document.querySelector('.limit').checkVisibility(),
        document.querySelector('#statement .ending').checkVisibility()]`), [false, true]);
});
