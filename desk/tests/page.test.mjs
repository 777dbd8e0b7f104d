// The page in a real browser, opened from disk: files in, statements out, and all of it what the core gives under Node.
import assert from 'node:assert/strict';
import { copyFileSync, mkdirSync, readFileSync, writeFileSync } from 'node:fs';
import path from 'node:path';
import { after, before, test } from 'node:test';
import { fileURLToPath } from 'node:url';
import { booksText } from '../books.mjs';
import { mistakeText } from '../mistakes.mjs';
import { statementsDocument } from '../sheets.mjs';
import { membersOf } from '../statement.mjs';
import { chargesText, wagesText } from '../wages.mjs';
import { AREAS, CSS, SETTLED, STOPS, TRIPS, cells, chooseMonth, expected, hidden, letter } from './pages.mjs';
import { showsStatement, startPages, text } from './pages.mjs';
import { DAY, both } from './rheinland.mjs';
import { TRIPS as HEAD } from './support.mjs';
import { workbookOf } from './workbooks.mjs';

let desk;

before(async () => {
    desk = await startPages();
});
after(() => desk?.close());

test('the sample: wages and statements are those of the core', async () => {
    const page = await desk.opened('#try');
    const result = expected();
    assert.deepEqual(await cells(page, '#wages tbody tr'), [
        ['Anna Berg', '9', '–', '−18,96 €', '76,51 €'],
        ['Cem Yıldız', '7', '1', '–', '70,58 €'],
        ['Jonas Kröger', '7', '1', '–', '45,04 €'],
        ['Marta Nowak', '6', '–', '−83,58 €', '123,90 €'],
    ]);
    for (const { name } of membersOf(result)) {
        await page.click(`[data-member="${name}"]`);
        await showsStatement(page, name, result);
    }
    desk.quiet(page);
});

test('files by choosing, another month, all months, another language', async () => {
    const page = await desk.opened();
    assert.deepEqual(await hidden(page, 'result'), [true]);
    await page.choose('#choose-files', [AREAS, STOPS, TRIPS]);
    await page.until(SETTLED);
    await showsStatement(page, 'Anna Berg', expected());
    await chooseMonth(page, '2026-11');
    await showsStatement(page, 'Anna Berg', expected({ period: '2026-11' }));
    await chooseMonth(page, '');
    await showsStatement(page, 'Anna Berg', expected({ period: null }));
    assert.equal(await page.ask('document.querySelector("#close").disabled'), true);
    await page.click('[data-language=en]');
    await page.until(`${SETTLED} && document.documentElement.lang === 'en'`);
    await showsStatement(page, 'Anna Berg', expected({ period: null, language: 'en' }), 'en');
    desk.quiet(page);
});

test('a folder by choosing: its own files, with the books of the last closing before the month', async () => {
    const folder = path.join(desk.folder, 'own');
    mkdirSync(path.join(folder, 'old'), { recursive: true });
    for (const name of [AREAS, STOPS, TRIPS]) copyFileSync(name, path.join(folder, path.basename(name)));
    copyFileSync(STOPS, path.join(folder, 'old/trips.csv'));
    writeFileSync(path.join(folder, 'notes.txt'), 'depart');
    const books = booksText(expected());
    writeFileSync(path.join(folder, 'books-2026-10.json'), books);
    writeFileSync(path.join(folder, 'books-2026-11.json'), books.replace('2026-10', '2026-11'));
    const page = await desk.opened();
    await page.choose('#choose-folder', [folder]);
    await page.until('document.querySelector("#period").value === "2026-12"'); // both months are closed
    await chooseMonth(page, '2026-11');
    const result = expected({ period: '2026-11', books });
    assert.equal(result.errors, 0);
    await showsStatement(page, 'Anna Berg', result);
    assert.match(await page.ask('document.querySelector("#statement").textContent'), /schon abgerechnet/);
    desk.quiet(page);
});

test('workbooks by choosing: the first sheet is read, and what cannot be read is told in a sentence', async () => {
    const [stops, trips] = [STOPS, TRIPS].map((name) => workbookOf(readFileSync(name, 'utf8')));
    const put = (name, bytes) => {
        writeFileSync(path.join(desk.folder, name), bytes);
        return path.join(desk.folder, name);
    };
    const page = await desk.opened();
    const old = put('alt.xls', Uint8Array.of(0xd0, 0xcf, 0x11, 0xe0));
    await page.choose('#choose-files', [AREAS, put('stops.xlsx', stops), put('Fahrten.xlsx', trips), old]);
    await page.until(SETTLED);
    await showsStatement(page, 'Anna Berg', expected());
    assert.match(await text(page, '#status'), /So nicht lesbar: alt\.xls\. Bitte mit „Speichern unter“/);
    desk.quiet(page);
});

test('two editions: each is listed, the statement names the one of each window, and a third day is told', async () => {
    const put = (name, content) => {
        writeFileSync(path.join(desk.folder, name), content);
        return path.join(desk.folder, name);
    };
    const ride = (date, times) => `Anna,${date},${times},Aachen Hbf,Düren Bf,,,,,,\n`;
    const night = ride('2026-05-31', '22:40,23:55') + ride('2026-06-01', '05:30,06:45');
    const trips = put('trips-wechsel.csv', HEAD + night + ride('2026-06-02', '12:00,12:50'));
    const { areas, stops } = both();
    const page = await desk.opened();
    await page.choose('#choose-files', [...areas, ...stops].map(({ name, bytes }) => put(name, bytes)));
    await page.choose('#choose-files', [trips]);
    await page.until(SETTLED);
    const listed = '[...document.querySelectorAll("#slots .file")].map((file) => file.firstChild.textContent.trim())';
    const files = ['areas.csv', `areas-${DAY}.csv`, 'stops.csv', `stops-${DAY}.csv`, 'trips-wechsel.csv'];
    assert.deepEqual((await page.ask(listed)).sort(), files.sort());
    await chooseMonth(page, '');
    await showsStatement(page, 'Anna', expected({ trips, period: null, areas, stops }));
    const notes = await page.ask('[...document.querySelectorAll("#statement .note")].map((note) => note.textContent)');
    assert.deepEqual(notes, ['Tarif NRW, Fassung bis 31.05.2026', 'Tarif NRW, Fassung ab 01.06.2026']);
    await page.choose('#choose-files', [put('areas-2027-01-01.csv', areas[1].bytes)]);
    await page.until('!document.querySelector("#mistakes").hidden');
    assert.match(await text(page, '#mistakes'), /areas-2027-01-01\.csv.*Fehler: ein dritter Tag: /s);
    assert.deepEqual(await hidden(page, 'result', 'one'), [true, true]);
    await page.click('[data-remove="areas-2027-01-01.csv"]');
    await page.until(SETTLED);
    desk.quiet(page);
});

test('files by dropping; mistakes beside the line, and nothing is priced until they are mended', async () => {
    const wrong = path.join(desk.folder, 'Fahrten Oktober.csv'); // known by its columns
    const lines = readFileSync(TRIPS, 'utf8').split('\n');
    lines[6] = lines[6].replace('Essen Hbf', 'Esen Hbf');
    lines[8] = lines[8].replace('13:10', '<i>13:10</i>');
    writeFileSync(wrong, lines.join('\n'));
    const page = await desk.opened();
    await page.drop([AREAS, STOPS, wrong]);
    await page.until('!document.querySelector("#mistakes").hidden');
    const result = expected({ trips: wrong });
    assert.equal(result.errors, 2);
    assert.deepEqual(
        await cells(page, '#mistakes tbody tr'),
        result.mistakes.map(({ line, text: told }) => [String(line), lines[line - 1], `Fehler: ${told}`]),
    );
    assert.equal(await page.ask('document.querySelector("#mistakes caption").textContent'), 'Fahrten Oktober.csv');
    assert.deepEqual(await hidden(page, 'result', 'one'), [true, true]);
    assert.match(await page.ask('document.querySelector("#status").textContent'), /nichts berechnet/);
    await page.click('[data-language=en]');
    await page.until('document.querySelector("#mistakes-heading").textContent === "2 errors"');
    const [row] = await cells(page, '#mistakes tbody tr');
    assert.equal(row[2], `Error: ${mistakeText(result.mistakes[0], 'en')}`);
    writeFileSync(wrong, readFileSync(TRIPS));
    await page.drop([wrong]);
    await page.until(SETTLED);
    assert.match(await text(page, '#status'), /Fahrten Oktober\.csv was there already and was replaced\./);
    await showsStatement(page, 'Anna Berg', expected({ language: 'en' }), 'en');
    desk.quiet(page);
});

test('a file that is none of ours is named', async () => {
    const page = await desk.opened();
    const other = path.join(desk.folder, 'other.csv');
    writeFileSync(other, 'a;b\n');
    await page.choose('#choose-files', [other]);
    await page.until('document.querySelector("#status").textContent === "Nicht erkannt: other.csv"');
    const roll = path.join(desk.folder, 'roll.bin');
    writeFileSync(roll, Uint8Array.of(26, 0, 7, 0));
    await page.choose('#choose-files', [roll]);
    await page.until('document.querySelector("#status").textContent.startsWith("Nicht genommen: roll.bin. Rollen (.bin)")');
    desk.quiet(page);
});

test('what is saved is what the core writes', async () => {
    const page = await desk.opened('#try');
    const result = expected();
    const due = {
        'wages-2026-10.csv': ['[data-save=wages]', wagesText(result, 'csv', 'de')],
        'charges-2026-10.csv': ['[data-save=charges]', chargesText(result, 'csv', 'de')],
        'statements-2026-10.html': ['[data-save=statements]', statementsDocument(result, 'de', CSS, letter())],
        'trips.csv': ['[data-sample=trips]', readFileSync(TRIPS, 'utf8')],
        'books-2026-10.json': ['#close', booksText(result)],
    };
    for (const [name, [button, own]] of Object.entries(due)) {
        assert.equal(await desk.saved(page, button, name), own, name);
    }
    desk.quiet(page);
});

test('printed, each member begins on a sheet of its own, and nothing else is printed', async () => {
    const page = await desk.opened('#try');
    await page.ask('window.print = () => {}');
    await page.click('#print-all');
    await page.until('document.querySelector("#all .statement") !== null');
    await page.send('Emulation.setEmulatedMedia', { media: 'print' });
    const seen = await page.ask(`[...document.querySelectorAll('body *')].filter((node) => node.checkVisibility())
        .filter((node) => !node.closest('.statement') && !node.querySelector('.statement'))
        .map(({ tagName }) => tagName)`);
    assert.deepEqual(seen, []);
    const breaks = await page.ask(`[...document.querySelectorAll('.statement')].filter((node) => node.checkVisibility())
        .map((node) => getComputedStyle(node).breakBefore)`);
    assert.deepEqual(breaks, ['auto', 'page', 'page', 'page']);
    await page.send('Emulation.setEmulatedMedia', { media: '' });
    const { data } = await page.send('Page.printToPDF', { preferCSSPageSize: true });
    const sheets = Buffer.from(data, 'base64').toString('latin1').match(/\/Type \/Page\b/g).length;
    assert.ok(sheets >= 4 && sheets <= 10, `${sheets} sheets`);
    await page.ask('window.dispatchEvent(new Event("afterprint"))');
    assert.equal(await page.ask('document.querySelectorAll(".statement").length'), 1);
    desk.quiet(page);
});

test('by keyboard alone, and with a name for everything that can be pressed', async () => {
    const page = await desk.opened();
    const focused = () => page.ask('(document.activeElement.closest("label") ?? document.activeElement).textContent');
    const seen = [];
    for (let i = 0; i < 5; i += 1) {
        await page.press('Tab');
        seen.push((await focused()).trim());
    }
    assert.deepEqual(seen, ['Deutsch', 'English', 'Dateien wählen', 'Ordner wählen', 'Beispiel ausprobieren']);
    await page.press('Enter', 'Enter', '\r');
    await page.until(SETTLED);
    await page.ask('document.querySelector("[data-member=\\"Marta Nowak\\"]").focus()');
    await page.press('Enter', 'Enter', '\r');
    await page.until('document.querySelector(".statement h2").textContent === "Marta Nowak"');
    assert.equal(await focused(), 'Marta Nowak');
    assert.equal(await page.ask('document.querySelector("[role=status]").textContent'), 'Abrechnung von Marta Nowak');
    await page.send('Accessibility.enable');
    const { nodes } = await page.send('Accessibility.getFullAXTree');
    const roles = ['button', 'combobox', 'table', 'region', 'image', 'heading', 'link', 'DisclosureTriangle'];
    const told = nodes.filter(({ ignored, role }) => !ignored && roles.includes(role.value));
    for (const { role, name } of told) assert.notEqual(name?.value.trim() ?? '', '', role.value);
    assert.ok(told.length > 30);
    desk.quiet(page);
});

test('the policy allows no network, and nothing is kept', async () => {
    const page = await desk.opened('#try');
    const policy = await page.ask('document.querySelector("meta[http-equiv]").content');
    const sum = "'sha256-[^ ']*'";
    const due = `default-src 'none'; script-src ${sum} 'wasm-unsafe-eval'; worker-src blob:; style-src ${sum} ${sum}; `;
    assert.match(policy, new RegExp(`^${due}base-uri 'none'; form-action 'none'$`));
    const refused = await page.ask(`Promise.all([
        fetch('https://example.org/').then(() => 'sent', () => 'refused'),
        fetch(location.href).then(() => 'sent', () => 'refused'),
        new Promise((done) => {
            const image = new Image();
            image.onload = () => done('sent');
            image.onerror = () => done('refused');
            image.src = 'https://example.org/x.png';
        }),
    ])`);
    assert.deepEqual(refused, ['refused', 'refused', 'refused']);
    const script = readFileSync(fileURLToPath(desk.address), 'utf8');
    const keeping = ['localStorage', 'sessionStorage', 'indexedDB', 'cookie', 'caches', 'http:', 'https:'];
    for (const word of keeping) assert.ok(!script.includes(word), word);
});

test('what must not be is told, and nothing is put out', async () => {
    const page = await desk.opened('#try');
    await page.ask('void Promise.reject(new Error("sums differ"))');
    await page.until('document.querySelector("#status").textContent.endsWith("nichts wird ausgegeben: sums differ")');
    assert.deepEqual(await hidden(page, 'result', 'one'), [true, true]);
});

test('forgetting leaves nothing on the page', async () => {
    const page = await desk.opened('#try');
    await page.click('#forget');
    assert.deepEqual(await page.ask('[...document.querySelectorAll("#slots .there, .statement")].length'), 0);
    assert.deepEqual(await hidden(page, 'result', 'one', 'mistakes'), [true, true, true]);
    desk.quiet(page);
});
