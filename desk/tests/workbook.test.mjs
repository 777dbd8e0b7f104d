// Workbooks: the first sheet of an .xlsx is read wherever CSV is, and what cannot be read is told in one sentence.
import assert from 'node:assert/strict';
import { spawnSync } from 'node:child_process';
import fs from 'node:fs';
import os from 'node:os';
import path from 'node:path';
import { test } from 'node:test';
import { sortOf } from '../page/files.mjs';
import { prepared, preparedFile } from '../workbook.mjs';
import { zipOf } from '../zip.mjs';
import { ROOT, SAMPLE, run, said, sample } from './support.mjs';
import { packed, parts, workbookOf } from './workbooks.mjs';

const csvIn = async (bytes) => new TextDecoder().decode((await preparedFile({ name: 'x.xlsx', bytes })).bytes);

/** What stands in a sheet of these cells, each a row. */
const texts = async (cells, options) => {
    const rows = cells.map((cell, i) => `<row r="${i + 1}">${cell}</row>`).join('');
    return (await csvIn(packed(parts(rows, options)))).split('\n').slice(0, -1);
};

test('a workbook gives what its CSV gives, whatever the file is of', async () => {
    const due = run(sample('trips.csv'));
    const trips = { name: 'trips.xlsx', bytes: workbookOf(sample('trips.csv')) };
    const [areas, stops] = ['areas', 'stops'].map((sort) => {
        return { name: `${sort}.xlsx`, bytes: workbookOf(sample(`${sort}.csv`)) };
    });
    const files = await prepared({ trips: [trips], areas, stops, books: null });
    const result = run(files.trips, files);
    assert.equal(result.errors, 0, said(result).join('\n'));
    assert.deepEqual([result.wages, result.tariff.hash], [due.wages, due.tariff.hash]);
    assert.deepEqual(said(result), said(due).map((line) => line.replace('.csv:', '.xlsx:')));
});

test('texts: shared, in runs, inline, of a formula, with signs of XML; a line’s end in a cell is a blank', async () => {
    const strings = `<si><t>plain</t></si><si><r><rPr><b/></rPr><t xml:space="preserve">in </t></r><r><t>runs</t></r>
<rPh sb="0" eb="1"><t>aside</t></rPh></si><si><t>a &lt;b&gt; &amp; &#252; &#xFC; "c"; _x0041_</t></si><si/>`;
    const cells = [
        ...[0, 1, 2, 3].map((i) => `<c r="A1" t="s"><v>${i}</v></c>`),
        '<c t="inlineStr"><is><t>two\nlines</t></is></c>',
        '<c r="B6" t="str"><f>A1&amp;"x"</f><v>made</v></c>',
        '<c r="A7" t="b"><v>1</v></c><c r="C7" t="e"><v>#REF!</v></c>',
        '<x:c r="AA8"><x:v>7</x:v></x:c>',
        '<c r="A9" t="inlineStr"><is><t><![CDATA[<raw>]]></t></is></c><!-- <c r="B9"><v>1</v></c> -->',
    ];
    assert.deepEqual(await texts(cells, { strings }), [
        ...['plain', 'in runs', '"a <b> & ü ü ""c""; A"', '', 'two lines', ';made', 'yes;;#REF!'],
        ...[`${';'.repeat(26)}7`, '<raw>'],
    ]);
});

test('numbers, dates and times by the form in which they are shown', async () => {
    const dates = ['dd.mm.yyyy', 'hh:mm', '[h]:mm', 'd/m/yy h:mm'];
    const codes = [...dates, '&quot;Tag&quot; 0', '[$-407]d. mmmm yyyy;@', 'h:mm AM/PM', '0.00 [Red]'];
    const own = codes.map((code, i) => `<numFmt numFmtId="${170 + i}" formatCode="${code}"/>`);
    const numbers = [0, 14, 20, 22, 46, ...codes.map((_, i) => 170 + i)];
    const forms = numbers.map((number) => `<xf numFmtId="${number}"/>`);
    const styles = `<numFmts>${own.join('')}</numFmts><cellXfs>${forms.join('')}</cellXfs>`;
    const shown = async (value, ...ids) => {
        const cells = ids.map((id) => `<c r="A1" s="${numbers.indexOf(id)}"><v>${value}</v></c>`);
        return (await texts(cells, { styles })).join(' | ');
    };
    assert.equal(await shown('46297', 14, 170, 175, 22, 173), Array(5).fill('2026-10-02').join(' | '));
    assert.equal(await shown('46297', 0, 174), '46297 | 46297');
    assert.equal(await shown('0.21388888888888888', 20, 171, 172, 176), '05:08 | 05:08 | 05:08 | 05:08');
    assert.equal(await shown('1.0145833333333334', 20, 171, 172, 46), '00:21 | 00:21 | 24:21 | 24:21');
    assert.equal(await shown('46297.99930555556', 14, 20, 22), '2026-10-02 | 23:59 | 2026-10-02 23:59');
    assert.equal(await shown('0.21394675925925925', 20), '05:08:05');
    assert.equal(await shown('0.28999999999999998', 0, 177), '0.29 | 0.29');
    assert.equal(await shown('1.4000000000000001', 0), '1.4');
    const book = '<workbookPr date1904="1"/>';
    assert.deepEqual(await texts(['<c s="1"><v>44835</v></c>'], { styles, book }), ['2026-10-02']);
});

test('rows keep their numbers, and the first sheet is the one that the workbook names first', async () => {
    const rows = '<row r="2"><c r="B2"><v>1</v></c></row><row r="4"/><row><c><v>2</v></c><c><v>3</v></c></row>';
    assert.equal(await csvIn(packed(parts(rows))), '\n;1\n\n\n2;3\n');
    const absolute = parts(rows, { target: '/xl/worksheets/sheet2.xml' });
    assert.equal(await csvIn(packed(absolute)), '\n;1\n\n\n2;3\n');
    assert.equal(await csvIn(zipOf(parts(rows), '2026-11-03')), '\n;1\n\n\n2;3\n'); // stored, not packed
});

test('a workbook that cannot be read is told in one sentence, and no text is guessed', async () => {
    const good = workbookOf(sample('trips.csv'));
    const lost = packed(parts('', { target: 'worksheets/none.xml' }));
    const torn = [good.subarray(0, good.length / 2), good.subarray(0, 10), packed([['mimetype', 'ods']]), lost];
    const old = Uint8Array.from([0xd0, 0xcf, 0x11, 0xe0, 0xa1, 0xb1, 0x1a, 0xe1]);
    for (const bytes of [...torn, old]) {
        const trips = await preparedFile({ name: 'trips.xlsx', bytes });
        assert.deepEqual(said(run(trips)), [
            "trips.xlsx:1: this workbook cannot be read as it is; please save it with 'Save as' as 'CSV UTF-8'",
        ]);
    }
    const damaged = good.slice();
    for (let at = 40; at < damaged.length; at += 97) damaged[at] ^= 255;
    assert.ok((await preparedFile({ name: 'trips.xlsx', bytes: damaged })).bytes.length > 0);
});

test('a dropped workbook is known by its name or by the columns of its first sheet', async () => {
    const file = async (name, text) => preparedFile({ name, bytes: workbookOf(text) });
    assert.equal(sortOf(await file('Trips Oktober.xlsx', sample('trips.csv'))), 'trips');
    assert.equal(sortOf(await file('Mappe1.xlsx', sample('stops.csv'))), 'stops');
    assert.equal(sortOf(await file('Mappe1.xlsx', 'a;b\n')), null);
});

test('the command takes workbooks of the folder, and a CSV of the same name instead', (context) => {
    const room = fs.mkdtempSync(path.join(os.tmpdir(), 'workbook-'));
    context.after(() => fs.rmSync(room, { recursive: true }));
    const put = (name, bytes) => fs.writeFileSync(path.join(room, name), bytes);
    const called = () => {
        return spawnSync(path.join(ROOT, 'milecopper'), ['wages', '--language', 'en'], { cwd: room, encoding: 'utf8' });
    };
    fs.copyFileSync(path.join(SAMPLE, 'areas.csv'), path.join(room, 'areas.csv'));
    for (const sort of ['stops', 'trips']) put(`${sort}.xlsx`, workbookOf(sample(`${sort}.csv`)));
    const due = called();
    assert.match(due.stdout, /^member,period,trips,refused,amount\nAnna Berg,2026-10,9,0,76\.51\n/);
    put('trips.csv', sample('trips.csv'));
    assert.equal(called().stdout, due.stdout);
    assert.doesNotMatch(called().stderr, /trips: /);
});
