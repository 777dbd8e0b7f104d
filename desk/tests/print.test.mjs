// Statements on paper: what a browser prints, read back from its PDF sheet by sheet.
import assert from 'node:assert/strict';
import { execFileSync, spawnSync } from 'node:child_process';
import { readFileSync, writeFileSync } from 'node:fs';
import path from 'node:path';
import { after, before, test } from 'node:test';
import { pathToFileURL } from 'node:url';
import { memberDocument, statementsDocument } from '../sheets.mjs';
import { membersOf } from '../statement.mjs';
import { startBrowser } from './browser.mjs';
import { CREW } from './crew.mjs';
import { FIREFOX, startFirefox } from './firefox.mjs';
import { CSS, READY, madePage } from './pages.mjs';
import { run, sample } from './support.mjs';

const READER = spawnSync('pdftotext', ['-v']).error ? 'pdftotext is not here (the package poppler-utils)' : false;

let [browser, firefox] = [];

before(async () => {
    browser = await startBrowser();
});
after(() => Promise.all([browser?.close(), firefox?.close()]));

/** A member of the sample, and one whose one window takes several sheets. More would only take more time. */
function longResult(language) {
    const result = run(longTrips(), { period: '2026-10', language });
    return { ...result, members: result.members.slice(-2) };
}

function longTrips() {
    const two = (number) => String(number).padStart(2, '0');
    const trip = (_, i) => `Zoe Lang;2026-10-06;${two(6 + Math.floor(i / 5))}:${two(10 * (i % 5))};` +
        `${two(6 + Math.floor(i / 5))}:${two(10 * (i % 5) + 8)};Hamm Hbf;Hamm Betriebshof;;;;;;`;
    return `${sample('trips.csv')}${Array.from({ length: 40 }, trip).join('\n')}\n`;
}

function written(result, language) {
    const file = path.join(browser.folder, `statements-${language}.html`);
    writeFileSync(file, statementsDocument(result, language, CSS));
    return pathToFileURL(file).href;
}

async function printedByChromium(url) {
    const page = await browser.page(url);
    await page.until('document.readyState === "complete" && document.querySelector(".statement") !== null');
    const { data } = await page.send('Page.printToPDF', { preferCSSPageSize: true, printBackground: true });
    return Buffer.from(data, 'base64');
}

async function printedByFirefox(url) {
    firefox ??= await startFirefox();
    return (await firefox.page(url)).printed();
}

/** The text of each sheet of a PDF. */
function sheetsOf(pdf) {
    const text = execFileSync('pdftotext', ['-layout', '-', '-'], { input: pdf, encoding: 'utf8' });
    return text.replaceAll('\u00a0', ' ').split('\f').slice(0, -1);
}

/** All amounts in cents behind the word, sheet by sheet. */
function centsBehind(sheets, word) {
    const line = new RegExp(`^\\s*${word}\\b.*?(€?[\\d.,]+)\\s*€?$`, 'gm');
    const found = sheets.flatMap((sheet) => [...sheet.matchAll(line)]);
    return found.map(([, amount]) => Number(amount.replace(/\D/g, '')));
}

const SUMS = { de: 'Summe', en: 'Sum' };

/** Every sheet is one member's, by its first line; the windows' sums on a member's sheets are the amount due. */
function addsUp(sheets, result, language, month) {
    const members = membersOf(result);
    const owners = sheets.map((sheet) => members.find(({ name }) => sheet.trimStart().startsWith(name))?.name);
    assert.ok(!owners.includes(undefined), `a sheet without a name: ${sheets[owners.indexOf(undefined)]}`);
    for (const sheet of sheets) assert.match(sheet.split('\n').slice(0, 4).join('\n'), month);
    for (const { name } of members) {
        const own = sheets.filter((_, i) => owners[i] === name);
        const due = result.wages.find(({ member }) => member === name).cents;
        assert.equal(centsBehind(own, SUMS[language]).reduce((sum, cents) => sum + cents, 0), due, name);
    }
    assert.ok(owners.length > members.length, 'a member has several sheets');
}

test('printed, each window has one sum, and each sheet name, month and number', { skip: READER }, async () => {
    for (const [language, month, number] of [
        ['de', /Abrechnung Oktober 2026/, (i, all) => `Seite ${i} von ${all}`],
        ['en', /Statement for October 2026/, (i, all) => `Page ${i} of ${all}`],
    ]) {
        const result = longResult(language);
        const sheets = sheetsOf(await printedByChromium(written(result, language)));
        addsUp(sheets, result, language, month);
        sheets.forEach((sheet, i) => assert.ok(sheet.includes(number(i + 1, sheets.length)), sheet));
    }
});

test('of the crew of 21, printed, a member’s windows add up to the amount', { skip: READER }, async () => {
    const all = run(readFileSync(path.join(CREW, 'trips.csv'), 'utf8'), { period: '2026-10', language: 'de' });
    const result = { ...all, members: all.members.slice(0, 3) }; // all of them are a hundred sheets
    const sheets = sheetsOf(await printedByChromium(written(result, 'de')));
    addsUp(sheets, result, 'de', /Abrechnung Oktober 2026/);
});

test('a member’s own file counts its own sheets, and has the sender on the first', { skip: READER }, async () => {
    const result = run(sample('trips.csv'), { period: '2026-10', language: 'de' });
    const marta = membersOf(result).find(({ name }) => name === 'Marta Nowak');
    const letter = { name: 'Fahrgemeinschaft Nord', contact: 'ute@example.org', date: '2026-11-03' };
    const file = path.join(browser.folder, 'Marta-Nowak-2026-10.html');
    writeFileSync(file, memberDocument(marta, result, 'de', CSS, letter));
    const sheets = sheetsOf(await printedByChromium(pathToFileURL(file).href));
    assert.match(sheets[0], /^\s*Fahrgemeinschaft Nord +03\.11\.2026\n\s*ute@example\.org\s+Marta Nowak\n/);
    for (const sheet of sheets.slice(1)) assert.match(sheet, /^\s*Marta Nowak\n\s*Abrechnung Oktober 2026\n/);
    sheets.forEach((sheet, i) => assert.ok(sheet.includes(`Seite ${i + 1} von ${sheets.length}`)));
    assert.equal(centsBehind(sheets, 'Summe').reduce((sum, cents) => sum + cents, 0), 12390);
});

test('printed from the page, one statement or all: their sheets and no others', { skip: READER }, async () => {
    const result = run(sample('trips.csv'), { period: '2026-10', language: 'de' });
    const page = await browser.page(`${madePage()}#try`, 'window.print = () => {}');
    await page.until(READY);
    const printed = async () => {
        const { data } = await page.send('Page.printToPDF', { preferCSSPageSize: true });
        return sheetsOf(Buffer.from(data, 'base64'));
    };
    const sums = (sheets) => centsBehind(sheets, 'Summe').reduce((sum, cents) => sum + cents, 0);
    await page.click('[data-member="Jonas Kröger"]');
    await page.until('document.querySelector("#statement h2").textContent === "Jonas Kröger"');
    const one = await printed();
    for (const sheet of one) assert.match(sheet, /^\s*(\d\d\.\d\d\.\d{4}\s+)?Jonas Kröger\n/);
    assert.equal(sums(one), 4504);
    await page.click('#print-all');
    await page.until('document.querySelector("#all .statement") !== null');
    const all = await printed();
    const names = membersOf(result).map(({ name }) => name).join('|');
    for (const sheet of all) assert.match(sheet, new RegExp(`^\\s*(\\d\\d\\.\\d\\d\\.\\d{4}\\s+)?(${names})\n`));
    assert.equal(sums(all), 31603);
});

const noFirefox = FIREFOX ? READER : 'Firefox is not here (firefox-esr or firefox)';
test('printed by Firefox, each window has one sum, and each sheet name and month', { skip: noFirefox }, async () => {
    const result = longResult('de');
    addsUp(sheetsOf(await printedByFirefox(written(result, 'de'))), result, 'de', /Abrechnung Oktober 2026/);
});

test('a window that fits on a sheet is kept together, and the foot never stands alone', { skip: READER }, async () => {
    const result = run(sample('trips.csv'), { period: '2026-10', language: 'de' });
    const address = written(result, 'de');
    const prints = [await printedByChromium(address), ...(FIREFOX ? [await printedByFirefox(address)] : [])];
    for (const sheet of prints.flatMap(sheetsOf)) {
        const marks = [/^\s*(24-Stunden-Fenster ab|Außerhalb)/gm, /^\s*Summe\b/gm];
        const [begun, ended] = marks.map((mark) => sheet.match(mark) ?? []);
        assert.ok(begun.length > 0, 'a sheet of the foot alone');
        assert.equal(begun.length, ended.length, sheet);
    }
});
