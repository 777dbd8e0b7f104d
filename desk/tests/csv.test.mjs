import assert from 'node:assert/strict';
import { test } from 'node:test';
import { eachRow, headerOf, writtenCsv } from '../csv.mjs';
import { decoded } from '../encoding.mjs';
import { sha256 } from '../hash.mjs';
import { nearest } from '../names.mjs';

const bytes = (text) => new TextEncoder().encode(text);
const read = (...given) => decoded(Uint8Array.from(given.flatMap((part) => (part.length ? [...bytes(part)] : part))));

function rowsOf(text) {
    const rows = [];
    const broken = eachRow(text, (cells, line) => rows.push({ line, cells }));
    return { rows, broken };
}

test('a byte order mark is dropped, of UTF-8 and of UTF-16', () => {
    assert.deepEqual(decoded(bytes('\uFEFFa;b\n')), { text: 'a;b\n', amiss: null });
    assert.deepEqual(read(0xff, 0xfe, 0x4d, 0, 0xfc, 0, 10, 0), { text: 'Mü\n', amiss: null });
    assert.deepEqual(read(0xfe, 0xff, 0, 0x4d, 0, 0xfc), { text: 'Mü', amiss: null });
});

test('Windows-1252 is read, and told by the first line that shows it', () => {
    const amiss = { key: 'ansi', line: 3 };
    assert.deepEqual(read('a\nb\nM', 0xfc, 'n ', 0x80, '\n'), { text: 'a\nb\nMün €\n', amiss });
});

test('what is UTF-8 in parts, or has a byte that is no sign of Windows-1252, is not guessed at', () => {
    const none = (line) => ({ text: null, amiss: { key: 'encoding', line } });
    assert.deepEqual(read('Münster\nM', 0xfc, 'nster\n'), none(2));
    assert.deepEqual(read('M', 0x81, 'nster\n'), none(1));
});

test('a zero byte is told as that', () => {
    const zero = (line) => ({ text: null, amiss: { key: 'nul', line } });
    assert.deepEqual(read('a\nb', 0), zero(2));
    assert.deepEqual(read('a', 0, ';', 0, 0xfc, 0), zero(1)); // UTF-16 without its mark
});

test('rows: either separator, any line end, blank lines left out', () => {
    assert.deepEqual(rowsOf('a;b\r\n1,5; 2\r\n\r\n;\n3;4').rows, [
        { line: 1, cells: ['a', 'b'] },
        { line: 2, cells: ['1,5', '2'] },
        { line: 5, cells: ['3', '4'] },
    ]);
    assert.deepEqual(rowsOf('a,b\n1.5,x;y\n').rows[1].cells, ['1.5', 'x;y']);
});

test('tabs, and a first line that says the separator', () => {
    assert.deepEqual(rowsOf('a\tb\tc\n1,5\t\t"x\ty"\n').rows, [
        { line: 1, cells: ['a', 'b', 'c'] },
        { line: 2, cells: ['1,5', '', 'x\ty'] },
    ]);
    for (const told of ['sep=;\r\n', '"sep=;"\n', 'SEP=;\n']) {
        assert.deepEqual(rowsOf(`${told}a;b\r\n1,5;2\r\n`).rows, [
            { line: 2, cells: ['a', 'b'] },
            { line: 3, cells: ['1,5', '2'] },
        ]);
    }
    assert.deepEqual(rowsOf('sep=,\na;b,c\n').rows[0].cells, ['a;b', 'c']);
    assert.deepEqual(headerOf('\n"a";b;;\n1;2\n'), ['a', 'b', '', '']);
});

test('quoted fields hold separators, quotes and line ends', () => {
    const { rows, broken } = rowsOf('a,b,c\n"1,5", "say ""so""" ,"two\nlines"\nx,"",y\n');
    assert.equal(broken, null);
    assert.deepEqual(rows[1], { line: 2, cells: ['1,5', 'say "so"', 'two\nlines'] });
    assert.deepEqual(rows[2], { line: 4, cells: ['x', '', 'y'] });
    assert.deepEqual(rowsOf('a\nthe "old" halt\n').rows[1].cells, ['the "old" halt']);
});

test('a quote that is not closed, or that text follows, is told by the line in which it begins', () => {
    assert.equal(rowsOf('a,b\n1,"2\n3,4\n').broken, 2);
    assert.equal(rowsOf('a,b\n1,2\n"3"4,5\n').broken, 3);
    assert.equal(rowsOf('a,b,c\n"1\r\n2","3\n4\n",5\n"6",7,8\n9,"10\n').broken, 7);
    assert.equal(rowsOf('a,b,c\n"1\r\n2","3\n4\n,5\n').broken, 3);
    assert.equal(rowsOf('a,b\n1,"2\n3,4\n5,"6"\n').broken, 2);
});

test('one unclosed quote in a large file takes no longer than the file', () => {
    const text = `a;b;c\n1;"2;3\n${'x;y;z\n'.repeat(400000)}`;
    const before = process.cpuUsage();
    assert.equal(rowsOf(text).broken, 2);
    const { user, system } = process.cpuUsage(before);
    assert.ok(user + system < 1e6, `${user + system} microseconds`); // it was quadratic: 20,000 rows took 19 seconds
});

test('what is written is read again, in both languages', () => {
    const rows = [['member', 'amount'], ['Berg; Anna, "die Erste"', '1,50'], ['two\nlines', '']];
    for (const language of ['de', 'en']) {
        const again = rowsOf(decoded(bytes(writtenCsv(rows, language))).text);
        assert.deepEqual(again.rows.map(({ cells }) => cells), rows);
    }
});

test('no text is run as a formula, and amounts stay what they are', () => {
    const texts = ['=1+1', '+49', '-x', '@a', '\ttab', '\rline', '=a;b,c"d'];
    for (const language of ['de', 'en']) {
        const written = writtenCsv([['head'], ...texts.map((text) => [text])], language);
        const [, ...rows] = rowsOf(decoded(bytes(written)).text).rows;
        assert.deepEqual(rows.map(({ cells }) => cells[0].replace('\n', '\r')), texts.map((text) => `'${text}`));
    }
    assert.equal(writtenCsv([["'=a", 'a=b', ' =c', '1-2', '']], 'en'), "'=a,a=b, =c,1-2,\n");
    const amounts = [[{ cents: -100 }, { cents: -150 }, { cents: -5 }, { cents: 128610 }, -3, null]];
    assert.equal(writtenCsv(amounts, 'de'), '\uFEFF-1,00;-1,50;-0,05;1286,10;-3;\n');
    assert.equal(writtenCsv(amounts, 'en'), '-1.00,-1.50,-0.05,1286.10,-3,\n');
});

test('near names', () => {
    const names = ['Bielefeld Hbf', 'Münster Hbf', 'Münster Zoo', 'Hamm Hbf'];
    assert.equal(nearest('Muenster Hbf', names), 'Münster Hbf');
    assert.equal(nearest('munster hbf', names), 'Münster Hbf');
    assert.equal(nearest('Bielfeld Hbf', names), 'Bielefeld Hbf');
    assert.equal(nearest('Bielefeld', names), 'Bielefeld Hbf');
    assert.equal(nearest('Oldenburg', names), null);
});

test('the hash is SHA-256', async () => {
    const { createHash } = await import('node:crypto');
    for (const length of [0, 3, 55, 56, 63, 64, 65, 1000, 14523]) {
        const some = Uint8Array.from({ length }, (_, i) => (i * 37 + length) % 256);
        assert.equal(sha256(some), createHash('sha256').update(some).digest('hex'));
    }
});
