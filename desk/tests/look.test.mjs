// What one looks at: the page on a phone and in the dark, the month at a glance, files listed, months that are open.
import assert from 'node:assert/strict';
import { copyFileSync, mkdirSync, readFileSync, writeFileSync } from 'node:fs';
import path from 'node:path';
import { after, before, test } from 'node:test';
import { booksText } from '../books.mjs';
import { glanceOf } from '../glance.mjs';
import { AREAS, CSS, SETTLED, STOPS, TOO_WIDE, TRIPS, cells, chooseMonth, expected, hidden } from './pages.mjs';
import { showsStatement, startPages, text } from './pages.mjs';
import { run, sample } from './support.mjs';

let desk;

before(async () => {
    desk = await startPages();
});
after(() => desk?.close());

const PHONE = { width: 390, height: 844, deviceScaleFactor: 2, mobile: true };
const onPhone = (page) => page.send('Emulation.setDeviceMetricsOverride', PHONE);

// ---- Files

/** The sample's trips in two files, written into the browser's folder. */
function halves() {
    const [head, ...rows] = sample('trips.csv').trimEnd().split('\n');
    const parts = { 'trips-early.csv': rows.slice(0, 12), 'trips-late.csv': rows.slice(12) };
    return Object.entries(parts).map(([name, own]) => {
        const file = path.join(desk.folder, name);
        writeFileSync(file, `${[head, ...own].join('\n')}\n`);
        return file;
    });
}

const listed = (page) =>
    page.ask('[...document.querySelectorAll("#slots .file")].map((file) => file.firstChild.textContent.trim())');
const total = (page) => text(page, '.wages tfoot .amount');

test('a second file of trips adds to the first, each is listed and can be removed', async () => {
    const page = await desk.opened();
    const [early, late] = halves();
    await page.choose('#choose-files', [AREAS, STOPS, early]);
    await page.until(SETTLED);
    const first = await total(page);
    await page.choose('#choose-files', [late]);
    await page.until(`${SETTLED} && document.querySelectorAll('#slots .file').length === 4`);
    assert.deepEqual(await listed(page), ['areas.csv', 'stops.csv', 'trips-early.csv', 'trips-late.csv']);
    assert.equal(await total(page), '316,03 €');
    await page.click('[data-remove="trips-late.csv"]');
    await page.until(`${SETTLED} && document.querySelectorAll('#slots .file').length === 3`);
    assert.equal(await total(page), first);
    assert.notEqual(first, '316,03 €');
    desk.quiet(page);
});

test('a file of the same name replaces the one of that name, and the page says so', async () => {
    const page = await desk.opened();
    const [early] = halves();
    await page.choose('#choose-files', [AREAS, STOPS, early]);
    await page.until(SETTLED);
    writeFileSync(early, readFileSync(TRIPS));
    await page.choose('#choose-files', [early]);
    await page.until(`${SETTLED} && document.querySelector('#status').textContent.includes('ersetzt')`);
    assert.deepEqual(await listed(page), ['areas.csv', 'stops.csv', 'trips-early.csv']);
    assert.match(await text(page, '#status'), /^trips-early\.csv war schon da und wurde ersetzt\.$/m);
    assert.equal(await total(page), '316,03 €');
});

test('own trips do not add to the sample’s', async () => {
    const page = await desk.opened('#try');
    const [early] = halves();
    await page.choose('#choose-files', [early]);
    await page.until(`${SETTLED} && document.querySelector('#slots').textContent.includes('trips-early.csv')`);
    assert.deepEqual(await listed(page), ['areas.csv', 'stops.csv', 'trips-early.csv']);
});

test('a dropped folder is taken as a chosen one, and there is a place that says so', async () => {
    const folder = path.join(desk.folder, 'dropped');
    mkdirSync(path.join(folder, 'old'), { recursive: true });
    for (const name of [AREAS, STOPS, TRIPS]) copyFileSync(name, path.join(folder, path.basename(name)));
    copyFileSync(STOPS, path.join(folder, 'old/trips-older.csv'));
    writeFileSync(path.join(folder, 'notes.txt'), 'depart');
    const page = await desk.opened();
    assert.match(await text(page, '#drop'), /Dateien oder einen Ordner hierher ziehen/);
    const tall = await page.ask('document.querySelector("#drop").getBoundingClientRect().height');
    assert.ok(tall > 120, `${tall} px`);
    await page.drop([folder]);
    await page.until(SETTLED);
    assert.deepEqual(await listed(page), ['areas.csv', 'stops.csv', 'trips.csv']);
    assert.equal(await total(page), '316,03 €');
    desk.quiet(page);
});

test('members.csv among the files: numbers in the list and in the wages, and mistakes beside its lines', async () => {
    const file = path.join(desk.folder, 'Stammdaten.csv'); // known by its columns
    const members = ['Anna Berg', 'Cem Yıldız', 'Jonas Kröger', 'Marta Nowak'].map((name, i) => `00${i + 1};${name};`);
    writeFileSync(file, `Personalnummer;Name;E-Mail\n${members.join('\n')}\n`);
    const page = await desk.opened('#try');
    await page.drop([file]);
    await page.until(`${SETTLED} && document.querySelector('#slots').textContent.includes('Stammdaten.csv')`);
    assert.equal((await cells(page, '#wages tbody tr'))[1][0], 'Cem Yıldız 002');
    const wages = await desk.saved(page, '[data-save=wages]', 'wages-2026-10.csv');
    assert.match(wages, /^Cem Yıldız;2026-10;7;1;70,58;002$/m);
    writeFileSync(file, `Personalnummer;Name;E-Mail\n${[...members, '001;Dora;'].join('\n')}\n`);
    await page.drop([file]);
    await page.until('!document.querySelector("#mistakes").hidden && document.querySelector("#result").hidden');
    assert.deepEqual((await cells(page, '#mistakes tbody tr'))[0].slice(0, 2), ['6', '001;Dora;']);
    desk.quiet(page);
});

// ---- Months

test('after closing, the open month is chosen and the selector stays; the closed one can be looked at', async () => {
    const page = await desk.opened('#try');
    const books = await desk.saved(page, '#close', 'books-2026-10.json');
    assert.equal(books, booksText(expected()));
    await page.until(`${SETTLED} && document.querySelector('#period').value === '2026-11'`);
    assert.deepEqual(await hidden(page, 'period', 'result'), [false, false]);
    assert.match(await text(page, '#status'), /^Oktober 2026 ist abgeschlossen: books-2026-10\.json bitte gut/m);
    assert.deepEqual(await listed(page), ['areas.csv', 'stops.csv', 'trips.csv', 'books-2026-10.json']);
    await showsStatement(page, 'Anna Berg', expected({ period: '2026-11', books }));
    await chooseMonth(page, '2026-10');
    assert.equal(await total(page), '316,03 €');
    const chosen = await page.ask('document.querySelector("#period").selectedOptions[0].text');
    assert.equal(chosen, 'Oktober 2026, abgeschlossen');
    assert.equal(await page.ask('document.querySelector("#close").disabled'), true);
    desk.quiet(page);
});

test('files and books at once: the open month is chosen, too, and where none has trips the next one', async () => {
    const folder = path.join(desk.folder, 'closed');
    mkdirSync(folder, { recursive: true });
    const books = path.join(folder, 'books-2026-10.json');
    writeFileSync(books, booksText(expected()));
    const page = await desk.opened();
    await page.choose('#choose-files', [AREAS, STOPS, TRIPS, books]);
    await page.until(`${SETTLED} && document.querySelector('#period').value === '2026-11'`);
    const october = path.join(folder, 'trips.csv');
    writeFileSync(october, sample('trips.csv').split('\n').filter((line) => !line.includes('2026-11')).join('\n'));
    await page.choose('#choose-files', [october]);
    await page.until('document.querySelector("#slots").textContent.includes("32 Zeilen")');
    await page.until('!document.querySelector("#month").hidden');
    assert.equal(await page.ask('document.querySelector("#period").value'), '2026-11');
    assert.deepEqual(await hidden(page, 'period', 'one'), [false, true]);
    assert.match(await text(page, '#status'), /steht noch keine/);
});

test('closing with doubts needs a second word', async () => {
    const page = await desk.opened('#try');
    await chooseMonth(page, '2026-11');
    const disabled = () => page.ask('document.querySelector("#close").disabled');
    assert.equal(await disabled(), true);
    assert.match(await text(page, '#doubts'), /2026-10|Oktober/); // would be left unclosed
    await page.click('#force');
    assert.equal(await disabled(), false);
    desk.quiet(page);
});

test('books of other prices: the page says so, and a button goes on with the new ones', async () => {
    const folder = path.join(desk.folder, 'dearer');
    mkdirSync(folder, { recursive: true });
    const [books, areas] = ['books-2026-10.json', 'areas.csv'].map((name) => path.join(folder, name));
    writeFileSync(books, booksText(expected()));
    const [head, state, ...rest] = sample('areas.csv').split('\n');
    const at = head.split(';').indexOf('base');
    const dearer = state.split(';').map((cell, i) => (i === at ? '1,99' : cell)).join(';');
    writeFileSync(areas, [head, dearer, ...rest].join('\n'));
    const page = await desk.opened();
    await page.choose('#choose-files', [areas, STOPS, TRIPS, books]);
    await page.until('!document.querySelector("#mistakes").hidden');
    assert.deepEqual(await hidden(page, 'new-tariff', 'period', 'result'), [false, false, true]);
    await page.click('#new-tariff button');
    await page.until(`${SETTLED} && document.querySelector('#period').value === '2026-11'`);
    assert.deepEqual(await hidden(page, 'new-tariff'), [true]);
    desk.quiet(page);
});

// ---- A phone

test('at 390 px nothing is wider than the screen: no amount is cut off, and pictures fit', async () => {
    for (const language of ['de', 'en']) {
        const page = await desk.opened('#try');
        await onPhone(page);
        if (language === 'en') await page.click('[data-language=en]');
        await page.until(`${SETTLED} && document.documentElement.lang === '${language}'`);
        for (const name of ['Anna Berg', 'Jonas Kröger', 'Marta Nowak']) {
            await page.click(`[data-member="${name}"]`);
            await page.until(`document.querySelector('#statement h2').textContent === ${JSON.stringify(name)}`);
            assert.deepEqual(await page.ask(TOO_WIDE), []);
            assert.equal(await page.ask('document.documentElement.scrollWidth'), 390);
        }
        await chooseMonth(page, '');
        assert.deepEqual(await page.ask(TOO_WIDE), []);
        const where = '.charge, .amount, .sum strong, .caps dd span:last-child';
        const amounts = await page.ask(`[...document.querySelectorAll('${where}')]
            .filter((node) => node.checkVisibility() && node.closest('thead') === null)
            .filter((node) => node.getClientRects().length !== 1).map((node) => node.textContent)`);
        assert.deepEqual(amounts, [], 'no amount breaks over lines');
        desk.quiet(page);
    }
});

test('at 390 px amounts as large as they can be and the longest names fit, too', async () => {
    const page = await desk.opened();
    await onPhone(page);
    const trips = path.join(desk.folder, 'trips-large.csv');
    const row = (line) => line.replace('Anna Berg', 'Alexandrina-Wilhelmine von Schwarzburg-Sondershausen')
        .replace(/;;;;;;$/, ';;1;;10;10;10');
    writeFileSync(trips, sample('trips.csv').split('\n').map(row).join('\n'));
    const areas = path.join(desk.folder, 'areas.csv');
    const dear = (line, i) => (i === 0 ? line : line.replace(/;(\d+),(\d\d);/, ';99,99;'));
    writeFileSync(areas, sample('areas.csv').split('\n').map(dear).join('\n'));
    await page.choose('#choose-files', [areas, STOPS, trips]);
    await page.until(SETTLED);
    assert.deepEqual(await page.ask(TOO_WIDE), []);
});

test('a click on a member brings the statement into view', async () => {
    const page = await desk.opened('#try');
    await onPhone(page);
    const top = () => page.ask('document.querySelector("#statement").getBoundingClientRect().top');
    assert.ok((await top()) > 844);
    await page.click('[data-member="Jonas Kröger"]');
    await page.until('document.querySelector("#statement h2").textContent === "Jonas Kröger"');
    await page.until('document.querySelector("#statement").getBoundingClientRect().top < 300');
    await page.click('[data-step="1"]');
    await page.until('document.querySelector("#statement h2").textContent === "Marta Nowak"');
    await page.click('#to-list');
    await page.until('document.activeElement.textContent === "Marta Nowak"');
});

// ---- Dark, and light on paper

const CONTRAST = `(() => {
    const light = (text) => {
        const part = (value) => (value / 255 <= 0.04045 ? value / 255 / 12.92 : ((value / 255 + 0.055) / 1.055) ** 2.4);
        const [red, green, blue] = text.match(/[\\d.]+/g).map(Number).map(part);
        return 0.2126 * red + 0.7152 * green + 0.0722 * blue;
    };
    const ground = (node) => {
        const own = getComputedStyle(node).backgroundColor;
        return own.endsWith(', 0)') && node.parentElement ? ground(node.parentElement) : own;
    };
    const says = (node) => [...node.childNodes].some((own) => own.nodeType === 3 && own.data.trim() !== '');
    const words = [...document.querySelectorAll('body *')]
        .filter((node) => node.checkVisibility() && !node.closest('svg, button:disabled') && says(node));
    const far = (node) => {
        const [one, other] = [light(getComputedStyle(node).color), light(ground(node))].sort((a, b) => b - a);
        return (one + 0.05) / (other + 0.05);
    };
    return words.filter((node) => far(node) < 4.5).map((node) => [node.tagName, node.className, far(node).toFixed(2)]);
})()`;

test('in the dark and in the light all words can be read, and paper stays light', async () => {
    for (const value of ['dark', 'light']) {
        const page = await desk.opened('#try');
        const features = [{ name: 'prefers-color-scheme', value }];
        await page.send('Emulation.setEmulatedMedia', { features });
        await page.ask('document.querySelectorAll("details").forEach((node) => (node.open = true))');
        assert.deepEqual(await page.ask(CONTRAST), [], value);
        const colour = 'getComputedStyle(document.querySelector(".statement")).backgroundColor';
        assert.equal(await page.ask(colour), value === 'dark' ? 'rgb(31, 29, 27)' : 'rgb(255, 255, 255)');
        await page.send('Emulation.setEmulatedMedia', { media: 'print', features });
        assert.equal(await page.ask(colour), 'rgb(255, 255, 255)');
        assert.equal(await page.ask('getComputedStyle(document.querySelector(".statement")).color'), 'rgb(0, 0, 0)');
    }
    assert.match(CSS, /@media screen and \(prefers-color-scheme: dark\)/);
});

// ---- The month at a glance

test('the month at a glance: a bar a window, and what caps took off adds up', async () => {
    const result = expected();
    const glance = glanceOf(result, 'de');
    assert.deepEqual(glance.map(({ bars }) => bars.length), [3, 3, 3, 3]);
    assert.deepEqual(glance.map(({ off }) => off), [1896, 0, 0, 8358]);
    glance.forEach(({ bars }, i) => {
        assert.equal(bars.reduce((sum, { charged }) => sum + charged, 0), result.wages[i].cents);
    });
    const [first] = glance[0].bars;
    assert.deepEqual([first.from, first.to], [1440 + 5 * 60 + 8, 2 * 1440 + 5 * 60 + 8]); // 2 October, 5:08
    const page = await desk.opened('#try');
    const drawn = await page.ask(`[...document.querySelectorAll('.wages .month')].map((month) =>
        ['.priced', '.cut'].map((part) => month.querySelector(part).getAttribute('d').split('M').length - 1))`);
    assert.deepEqual(drawn, [[3, 2], [3, 0], [3, 0], [3, 3]]);
    const words = await page.ask('document.querySelector(".month").getAttribute("aria-label")');
    assert.equal(words, '3 Fenster: 76,51\u00a0€, abgezogen 18,96\u00a0€');
});

test('a month at a glance that has another sum than the wages is none', () => {
    const result = expected();
    const wages = result.wages.map((row) => ({ ...row, cents: row.cents + 1 }));
    assert.throws(() => glanceOf({ ...result, wages }, 'de'), /windows and wages/);
});

test('members are sorted by name, as the language sorts', async () => {
    const trips = ['Zoë', 'Öztürk', 'anna', 'Orth', 'Crew 10', 'Crew 9'].map((name, i) => {
        return `${name};2026-10-0${i + 1};05:08;05:20;Bielefeld Universität;Bielefeld Hbf`;
    });
    const head = 'member;date;depart;arrive;from;to';
    const result = run(`${[head, ...trips].join('\n')}\n`, { period: '2026-10', language: 'de' });
    const due = ['anna', 'Crew 9', 'Crew 10', 'Orth', 'Öztürk', 'Zoë'];
    assert.deepEqual(result.members.map(({ name }) => name), due);
    assert.deepEqual(result.wages.map(({ member }) => member), due);
    const file = path.join(desk.folder, 'trips-names.csv');
    writeFileSync(file, `${[head, ...trips].join('\n')}\n`);
    const page = await desk.opened();
    await page.choose('#choose-files', [AREAS, STOPS, file]);
    await page.until(SETTLED);
    assert.deepEqual((await cells(page, '#wages tbody tr')).map(([name]) => name), due);
});
