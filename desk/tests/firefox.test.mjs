// The main things once more in Firefox, where it is there: files in, statements and tables out, narrow and dark.
import assert from 'node:assert/strict';
import { existsSync, mkdirSync, readFileSync, writeFileSync } from 'node:fs';
import path from 'node:path';
import { after, before, test } from 'node:test';
import { pathToFileURL } from 'node:url';
import { booksText } from '../books.mjs';
import { wagesText } from '../wages.mjs';
import { until } from './browser.mjs';
import { FIREFOX, startFirefox } from './firefox.mjs';
import { AREAS, READY, SETTLED, STOPS, TOO_WIDE, TRIPS, expected, madePage, showsStatement, text } from './pages.mjs';
import { workbookOf } from './workbooks.mjs';

const skip = FIREFOX ? false : 'Firefox is not here (firefox-esr or firefox)';

let [firefox, address] = [];

before(async () => {
    if (skip) return;
    address = madePage();
    firefox = await startFirefox();
});
after(() => firefox?.close());

async function opened(tail = '') {
    const page = await firefox.page('about:blank').then(() => firefox.page(address + tail));
    await page.until(READY);
    return page;
}

async function saved(page, selector, name) {
    const file = path.join(firefox.saved, name);
    mkdirSync(firefox.saved, { recursive: true });
    await page.click(selector);
    await until(() => existsSync(file) && readFileSync(file).length > 0, name);
    return readFileSync(file, 'utf8');
}

test('in Firefox: files by choosing, and wages and statements are those of the core', { skip }, async () => {
    const page = await opened();
    assert.equal(await page.ask('document.body.dataset.work'), 'worker');
    await page.choose('#choose-files', [AREAS, STOPS, TRIPS]);
    await page.until(SETTLED);
    for (const name of ['Anna Berg', 'Marta Nowak']) {
        await page.click(`[data-member="${name}"]`);
        await showsStatement(page, name, expected());
    }
    assert.equal(await saved(page, '[data-save=wages]', 'wages-2026-10.csv'), wagesText(expected(), 'csv', 'de'));
});

test('in Firefox: a workbook’s first sheet is read', { skip }, async () => {
    const workbook = path.join(firefox.folder, 'Fahrten.xlsx');
    writeFileSync(workbook, workbookOf(readFileSync(TRIPS, 'utf8')));
    const page = await opened();
    await page.choose('#choose-files', [AREAS, STOPS, workbook]);
    await page.until(SETTLED);
    await showsStatement(page, 'Anna Berg', expected());
});

test('in Firefox: closing goes on to the open month', { skip }, async () => {
    const page = await opened('#try');
    assert.equal(await saved(page, '#close', 'books-2026-10.json'), booksText(expected()));
    await page.until(`${SETTLED} && document.querySelector('#period').value === '2026-11'`);
    assert.match(await text(page, '#status'), /^Oktober 2026 ist abgeschlossen/m);
});

test('in Firefox: at 390 px nothing is wider than the screen', { skip }, async () => {
    const frame = path.join(firefox.folder, 'phone.html'); // no window of Firefox is as narrow
    const size = 'width="390" height="844" frameborder="0"';
    writeFileSync(frame, `<!DOCTYPE html><iframe src="${address}#try" ${size}></iframe>`);
    const page = await firefox.page(pathToFileURL(frame).href);
    await page.send('WebDriver:SwitchToFrame', { id: 0 });
    await page.until(`${READY} && innerWidth === 390`);
    await page.click('[data-member="Jonas Kröger"]');
    await page.until('document.querySelector("#statement h2").textContent === "Jonas Kröger"');
    assert.deepEqual(await page.ask(TOO_WIDE), []);
});
