// One file a member, to be sent to her: its name, who it is from, and the zip of all of them.
import assert from 'node:assert/strict';
import path from 'node:path';
import { after, before, test } from 'node:test';
import { booksText } from '../books.mjs';
import { documentNames, memberDocument, statementHtml } from '../sheets.mjs';
import { membersOf } from '../statement.mjs';
import { crc32, zipOf } from '../zip.mjs';
import { AREAS, CSS, SETTLED, STOPS, TRIPS, expected, letter, showsStatement, startPages, text } from './pages.mjs';
import { TRIPS as HEAD, run } from './support.mjs';

let desk;

before(async () => {
    desk = await startPages();
});
after(() => desk?.close());

const LETTER = { name: 'Fahrgemeinschaft <Nord> e. V.', contact: 'Ute Specht, ute@example.org', date: '2026-11-03' };

const NAMES = ['Anna-Berg', 'Cem-Yıldız', 'Jonas-Kröger', 'Marta-Nowak'].map((name) => `${name}-2026-10.html`);

// ---- The files

test('a member’s file is named by member and month, and no two alike', () => {
    assert.deepEqual(documentNames(expected()), NAMES);
    const trip = (name, day) => `${name},2026-10-0${day},08:00,08:20,Hamm Hbf,Hamm Betriebshof,,,,,,\n`;
    const result = run(HEAD + trip('A/B', 1) + trip('a:b', 2) + trip('Anna Berg', 3) + trip('Anna-Berg', 4));
    assert.deepEqual(documentNames(result), ['a_b.html', 'A_B-2.html', 'Anna-Berg.html', 'Anna-Berg-2.html']);
});

test('association, contact and date stand above the statement, and nothing where none is given', () => {
    const result = expected();
    const [anna] = membersOf(result);
    const html = statementHtml(anna, result, 'de', LETTER);
    const [head] = html.match(/<div class="letter">.*<\/div>/);
    const said = head.split(/<[^>]*>/).map((part) => part.trim()).filter((part) => part !== '');
    assert.deepEqual(said, ['Fahrgemeinschaft &lt;Nord&gt; e. V.', 'Ute Specht, ute@example.org', '03.11.2026']);
    assert.match(statementHtml(anna, result, 'en', LETTER), /3 Nov 2026/);
    for (const none of [null, { name: '', contact: '', date: '' }]) {
        assert.ok(!statementHtml(anna, result, 'de', none).includes('class="letter"'));
    }
    const file = memberDocument(anna, result, 'de', CSS, LETTER);
    assert.match(file, /<title>Anna Berg, Abrechnung Oktober 2026<\/title>/);
    assert.ok(file.includes(html));
    for (const { name } of membersOf(result).slice(1)) assert.ok(!file.includes(name), 'nothing of others is in it');
});

// ---- The zip

/** The files of a zip, by its directory, with what stands before each checked against it. */
function unzipped(bytes) {
    const view = new DataView(bytes.buffer, bytes.byteOffset, bytes.length);
    const [two, four] = [(at) => view.getUint16(at, true), (at) => view.getUint32(at, true)];
    const end = bytes.length - 22;
    assert.equal(four(end), 0x06054b50);
    const files = new Map();
    let at = four(end + 16);
    for (let i = 0; i < two(end + 10); i += 1) {
        const place = four(at + 42);
        assert.deepEqual([four(at), four(place)], [0x02014b50, 0x04034b50]);
        assert.deepEqual(bytes.subarray(at + 6, at + 32), bytes.subarray(place + 4, place + 30));
        const start = place + 30 + two(at + 28);
        const name = Buffer.from(bytes.subarray(at + 46, at + 46 + two(at + 28))).toString();
        const own = bytes.subarray(start, start + four(at + 24));
        assert.deepEqual([crc32(own), two(at + 8) & 0x800, two(at + 10)], [four(at + 16), 0x800, 0]);
        files.set(name, Buffer.from(own).toString());
        at += 46 + two(at + 28);
    }
    assert.equal(at, end);
    return files;
}

test('the zip holds the files as they are, with their names, sums and day', () => {
    assert.equal(crc32(new TextEncoder().encode('123456789')), 0xcbf43926); // the sum that all zips agree on
    const files = [['Jonas-Kröger.html', 'ä'.repeat(70000)], ['leer.html', '']];
    const bytes = zipOf(files, '2026-11-03');
    assert.deepEqual([...unzipped(bytes)], files);
    const day = new DataView(bytes.buffer).getUint16(12, true);
    assert.deepEqual([1980 + (day >> 9), (day >> 5) & 15, day & 31], [2026, 11, 3]);
});

// ---- On the page

async function write(page, fields) {
    for (const [key, value] of Object.entries(fields)) {
        await page.ask(`(() => {
            const field = document.querySelector('#letter-${key}');
            field.value = ${JSON.stringify(value)};
            field.dispatchEvent(new Event('change'));
        })()`);
    }
}

test('on the page: one file a member as a zip, and one by one, with what was written in the fields', async () => {
    const page = await desk.opened('#try');
    assert.equal(await page.ask('document.querySelector("#letter-date").value'), letter().date);
    await write(page, LETTER);
    await page.until('document.querySelector("#statement .letter")?.textContent.includes("Ute Specht") === true');
    const result = expected();
    await page.until('document.querySelector("#statement .letter").textContent.includes("03.11.2026")');
    await showsStatement(page, 'Anna Berg', result, 'de', LETTER);
    const own = membersOf(result).map((member, i) => [NAMES[i], memberDocument(member, result, 'de', CSS, LETTER)]);
    const zip = await desk.packed(page, '[data-save=files]', 'statements-2026-10.zip');
    assert.deepEqual([...unzipped(new Uint8Array(zip))], own);
    await page.click('[data-member="Cem Yıldız"]');
    await page.until('document.querySelector("#statement h2").textContent === "Cem Yıldız"');
    assert.equal(await desk.saved(page, '[data-save=file]', NAMES[1]), own[1][1]);
    desk.quiet(page);
});

test('name and contact are remembered in the books alone, and the date is today’s again', async () => {
    const page = await desk.opened('#try');
    await write(page, LETTER);
    const books = await desk.saved(page, '#close', 'books-2026-10.json');
    const { name, contact } = LETTER;
    assert.deepEqual(JSON.parse(books).association, { name, contact });
    assert.equal(books, booksText({ ...expected(), association: { name, contact } }));
    const next = await desk.opened();
    assert.equal(await next.ask('document.querySelector("#letter-name").value'), '');
    await next.choose('#choose-files', [AREAS, STOPS, TRIPS, path.join(desk.folder, 'saved/books-2026-10.json')]);
    await next.until(SETTLED);
    assert.match(await text(next, '#statement .letter'), /Fahrgemeinschaft <Nord> e\. V\. Ute Specht/);
    const fields = await next.ask('[...document.querySelectorAll("[id^=letter-]")].map(({ value }) => value)');
    assert.deepEqual(fields, [name, contact, letter().date]);
    await next.click('#forget');
    assert.equal(await next.ask('document.querySelector("#letter-name").value'), '');
});

test('books go on with the association, and books without one are as before', () => {
    const { name, contact } = LETTER;
    const books = booksText({ ...expected(), association: { name, contact } });
    const next = expected({ period: '2026-11', books });
    assert.deepEqual(next.association, { name, contact });
    assert.deepEqual(JSON.parse(booksText(next)).association, { name, contact });
    const plain = booksText(expected());
    assert.ok(!plain.includes('association'));
    assert.equal(booksText({ ...expected(), association: { name: '', contact: '' } }), plain);
    const odd = books.replace(/"association": \{[^}]*\}/, '"association": {"name": 5}');
    const result = expected({ period: '2026-11', books: odd });
    assert.deepEqual([result.errors, result.association], [0, null]);
});
