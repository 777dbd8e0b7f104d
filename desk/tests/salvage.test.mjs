import assert from 'node:assert/strict';
import { spawnSync } from 'node:child_process';
import fs from 'node:fs';
import os from 'node:os';
import path from 'node:path';
import { after, test } from 'node:test';
import { fileURLToPath } from 'node:url';
import { isRoll } from '../page/files.mjs';
import { LABELS } from '../page/labels.mjs';
import { salvaged } from '../salvage.mjs';

const ROOT = path.dirname(path.dirname(path.dirname(fileURLToPath(import.meta.url))));
const room = fs.mkdtempSync(path.join(os.tmpdir(), 'desk-'));
after(() => fs.rmSync(room, { recursive: true }));

const ROLL = fs.readFileSync(path.join(ROOT, 'samples/roll.bin'));
const KEPT = path.join(room, 'kept.bin');
const RECORDS = 14; // of the sample

function called(...words) {
    const program = path.join(ROOT, 'milecopper');
    const { status, stdout, stderr } = spawnSync(program, ['salvage', ...words], { cwd: room, encoding: 'utf8' });
    return { status, out: stdout, told: stderr };
}

function roll(name, ...parts) {
    fs.writeFileSync(path.join(room, name), Buffer.concat(parts.map((part) => Buffer.from(part))));
    return name;
}

test('a roll of which nothing is lost', () => {
    assert.deepEqual(called(roll('whole.bin', ROLL), '--language', 'en'), {
        status: 0,
        out: `trips kept: ${RECORDS}, bytes lost: 0\nwritten: kept.bin\n`,
        told: '',
    });
    assert.deepEqual(fs.readFileSync(KEPT), ROLL);
    assert.deepEqual(called(roll('empty.bin')), {
        status: 0,
        out: 'behaltene Fahrten: 0, verlorene Bytes: 0\ngeschrieben: kept.bin\n',
        told: '',
    });
    assert.equal(fs.readFileSync(KEPT).length, 0);
});

test('a torn roll: what is kept, and which bytes are lost, in sentences and as a table', () => {
    const torn = roll('torn.bin', 'x', ROLL.subarray(0, 40), ROLL.subarray(28), [2, 0, 9, 0]);
    const end = 41 + ROLL.length - 28;
    assert.deepEqual(called(torn), {
        status: 1,
        out: `behaltene Fahrten: ${RECORDS}, verlorene Bytes: 17
verloren: ab Byte 0, Länge 1
verloren: ab Byte 29, Länge 12
verloren: ab Byte ${end}, Länge 4
geschrieben: kept.bin
`,
        told: '',
    });
    assert.deepEqual(fs.readFileSync(KEPT), ROLL);
    const out = path.join(room, 'out');
    assert.deepEqual(called(torn, '--format', 'csv', '--out', out), {
        status: 1,
        out: `offset;length\n0;1\n29;12\n${end};4\n`,
        told: '',
    });
    assert.deepEqual(fs.readdirSync(out), ['kept.bin']);
    assert.deepEqual(fs.readFileSync(path.join(out, 'kept.bin')), ROLL);
});

test('too long, not there, a folder, no folder to write in: status 2, and no kept.bin', () => {
    const long = roll('long.bin', Buffer.alloc(60_001));
    const most = roll('most.bin', Buffer.alloc(60_000));
    fs.writeFileSync(path.join(room, 'file'), '');
    fs.mkdirSync(path.join(room, 'taken/kept.bin'), { recursive: true });
    assert.equal(called(most).status, 1);
    const wrong = [
        [[long], /long\.bin ist zu lang/],
        [['gone.bin'], /gone\.bin lässt sich nicht retten: nicht da/],
        [['.', '--language', 'en'], /cannot be salvaged: not a file but a folder/],
        [[long, '--out', 'file'], /in file kann nicht geschrieben werden/],
        [['whole.bin', '--out', 'taken'], /in taken kann nicht geschrieben werden/],
    ];
    for (const [words, says] of wrong) {
        roll('kept.bin', 'earlier');
        const { status, out, told } = called(...words);
        assert.deepEqual([status, out], [2, ''], words.join(' '));
        assert.match(told, says);
        if (!words.includes('--out')) assert.equal(fs.existsSync(KEPT), false, words.join(' '));
    }
});

test('the roll itself is not overwritten, and words that are not known are told', () => {
    roll('kept.bin', ROLL);
    const { status, out, told } = called('kept.bin');
    assert.deepEqual([status, out], [2, '']);
    assert.match(told, /kept\.bin ist die Rolle selbst/);
    assert.deepEqual(fs.readFileSync(KEPT), ROLL);
    for (const words of [[], ['a', 'b'], ['a', '--format', 'json']]) {
        assert.equal(called(...words).status, 2);
        assert.match(called(...words).told, /usage: /);
    }
});

/** A stand-in for the program. */
function program(text) {
    fs.writeFileSync(path.join(room, 'program'), `#!/bin/sh\n${text}\n`, { mode: 0o755 });
    return path.join(room, 'program');
}

test('a program that tells something, ends by a signal, or leaves no file', () => {
    const whole = path.join(room, roll('whole.bin', ROLL));
    assert.throws(() => salvaged(program('echo kept.bin: No space left on device >&2'), whole), /No space left/);
    assert.throws(() => salvaged(program('kill -TERM $$'), whole), /SIGTERM/);
    assert.throws(() => salvaged(program('exit 3'), whole), /status 3/);
    assert.throws(() => salvaged(program(':'), whole), { code: 'ENOENT' });
    assert.throws(() => salvaged(path.join(room, 'nowhere'), whole), { code: 'ENOENT' });
    assert.equal(salvaged(program('echo too long'), whole), null);
});

test('the page says of a roll that it takes none', () => {
    assert.deepEqual(['roll.bin', 'ROLL.BIN', 'trips.csv'].map((name) => isRoll({ name })), [true, true, false]);
    assert.match(LABELS.de.rolls('roll.bin'), /^Nicht genommen: roll\.bin\. .*\.\/milecopper salvage/);
    assert.match(LABELS.en.rolls('roll.bin'), /^Not taken: roll\.bin\. .*\.\/milecopper salvage/);
});
