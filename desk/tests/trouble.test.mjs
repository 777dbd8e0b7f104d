// A file, a folder or an option that fails: one line says why, the status is 2, and there is never a trace.
import assert from 'node:assert/strict';
import { spawnSync } from 'node:child_process';
import fs from 'node:fs';
import os from 'node:os';
import path from 'node:path';
import { after, test } from 'node:test';
import { fileURLToPath } from 'node:url';

const ROOT = path.dirname(path.dirname(path.dirname(fileURLToPath(import.meta.url))));
const room = fs.mkdtempSync(path.join(os.tmpdir(), 'trouble-'));
fs.chmodSync(room, 0o755);
after(() => fs.rmSync(room, { recursive: true }));

/** A checkout of its own, whose engine is this file, and which has no toolchain. */
function checkout(name, wasm) {
    const root = path.join(room, name);
    const copied = (part) => fs.cpSync(path.join(ROOT, part), path.join(root, part), { recursive: true });
    for (const part of ['desk', 'milecopper', 'crates.txt', 'include']) copied(part);
    fs.mkdirSync(path.join(root, 'host'));
    fs.writeFileSync(path.join(root, 'host/built'), `#!/bin/sh\necho '${wasm}'\n`, { mode: 0o755 });
    return root;
}

const good = checkout('good', path.join(ROOT, 'target/native/milecopper.wasm'));
const SAMPLE = path.join(good, 'desk/sample');

function called(root, words, options = {}) {
    const program = path.join(root, 'milecopper');
    return spawnSync(program, [...words, '--language', 'en'], { cwd: room, encoding: 'utf8', ...options });
}

/** Fails with just this line. */
function fails(words, line, root = good, options = {}) {
    const { status, stdout, stderr } = called(root, words, options);
    assert.deepEqual([status, stdout, stderr], [2, '', `./milecopper: ${line}\n`], words.join(' '));
}

/** A folder with the sample's files. */
function folder(name) {
    const place = path.join(room, name);
    fs.cpSync(SAMPLE, place, { recursive: true });
    return place;
}

test('a file where a folder is due, and a folder that is not there', () => {
    const file = path.join(SAMPLE, 'trips.csv');
    fails(['check', file], `the folder ${file} cannot be read: not a folder but a file`);
    fails(['wages', path.join(file, 'in')], `the folder ${file}/in cannot be read: not a folder but a file`);
    fails(['settle', 'nowhere'], 'the folder nowhere cannot be read: not there');
    const long = 'x'.repeat(300);
    fails(['close', long, '--period', '2026-10'], `the folder ${long} cannot be read: the name is too long`);
});

test('a folder where a file is due, and a file that is not there', () => {
    const place = folder('folders');
    for (const name of ['trips.csv', 'books-2026-09.json']) {
        fs.rmSync(path.join(place, name), { force: true });
        fs.mkdirSync(path.join(place, name));
    }
    fs.rmSync(path.join(place, 'stops.csv'));
    const [stops, trips] = ['stops.csv', 'trips.csv'].map((name) => path.join(place, name));
    const books = path.join(place, 'books-2026-09.json');
    const { status, stderr } = called(good, ['check', place]);
    assert.equal(status, 2);
    const all = `${stops} (not there), ${trips} (not a file but a folder), ${books} (not a file but a folder)`;
    assert.equal(stderr, `./milecopper: cannot be read: ${all}\n`);
    const under = path.join(SAMPLE, 'trips.csv/trips.csv');
    fails(['check', SAMPLE, '--trips', under], `cannot be read: ${under} (not a folder but a file)`);
});

test('a folder and a file that must not be read', { skip: process.getuid() !== 0 && 'only root may try' }, () => {
    const place = folder('closed');
    const areas = path.join(place, 'areas.csv');
    fs.chmodSync(areas, 0o600);
    const nobody = { uid: 65534, gid: 65534 };
    fails(['check', place], `cannot be read: ${areas} (no permission)`, good, nobody);
    fs.chmodSync(place, 0o700);
    fails(['check', place], `the folder ${place} cannot be read: no permission`, good, nobody);
});

test('--out that is a file, that lies under one, and that has a folder in the place of a file', () => {
    const file = path.join(room, 'out-file');
    fs.writeFileSync(file, 'kept');
    const written = (...words) => called(good, ['wages', SAMPLE, ...words]);
    for (const [out, why] of [[file, 'not a folder but a file'], [`${file}/in`, 'not a folder but a file']]) {
        const { status, stdout, stderr } = written('--out', out);
        assert.deepEqual([status, stdout], [2, '']);
        assert.equal(stderr.split('\n').at(-2), `./milecopper: cannot write in ${out}: ${why}`);
    }
    assert.equal(fs.readFileSync(file, 'utf8'), 'kept');
    const taken = path.join(room, 'taken');
    fs.mkdirSync(path.join(taken, 'wages.csv'), { recursive: true });
    const { status, stderr } = written('--out', taken);
    assert.equal(status, 2);
    assert.match(stderr, /\n\.\/milecopper: cannot write in .*taken: not a file but a folder\n$/);
    assert.deepEqual(fs.readdirSync(taken), ['wages.csv']);
});

test('an engine that is broken, empty, of another make, or not there', () => {
    const engine = (name, bytes) => {
        const file = path.join(room, `${name}.wasm`);
        if (bytes) fs.writeFileSync(file, bytes);
        const { status, stdout, stderr } = called(checkout(name, file), ['check', SAMPLE]);
        assert.deepEqual([status, stdout], [2, ''], name);
        assert.match(stderr, /^\.\/milecopper: the engine cannot be loaded: .*\n$/, name);
    };
    engine('torn', Uint8Array.from([0, 97, 115, 109, 1, 0, 0, 0, 1]));
    engine('void', new Uint8Array(0));
    engine('other', Uint8Array.from([0, 97, 115, 109, 1, 0, 0, 0])); // a module without anything in it
    engine('gone', null);
});

test('a checkout that lacks its parts: no builder, no list of crates, no header', () => {
    const root = checkout('bare', '');
    for (const part of ['host/built', 'crates.txt', 'include']) fs.rmSync(path.join(root, part), { recursive: true });
    const { status, stdout, stderr } = called(root, ['check', SAMPLE]);
    assert.deepEqual([status, stdout], [2, '']);
    assert.match(stderr, /^\.\/milecopper: the engine cannot be loaded: not there\n$/);
    const line = "the version's number in include/milecopper.h cannot be read: not there";
    fails(['--version'], line, root);
    fs.rmSync(path.join(root, 'desk/words.mjs'));
    const broken = called(root, ['check', SAMPLE]);
    assert.deepEqual([broken.status, broken.stdout], [2, '']);
    assert.match(broken.stderr, /^\.\/milecopper: Cannot find module .*words\.mjs.*\n$/);
});

test('what is put out has nowhere to go: a reader that left, a full disk, a closed output', () => {
    const shell = (line) => {
        const run = `'${path.join(good, 'milecopper')}' --help --language en`;
        return spawnSync('bash', ['-c', line.replace('RUN', run)], { cwd: room, encoding: 'utf8' });
    };
    const full = shell('RUN >/dev/full');
    assert.equal(full.status, 2);
    assert.match(full.stderr, /^\.\/milecopper: .* \/ the output cannot be written: no space left\n$/);
    const left = shell('set -o pipefail; RUN | true');
    assert.deepEqual([left.status, left.stderr], [0, '']);
    for (const line of ['RUN >&-', 'RUN 2>&-', 'RUN <&-']) assert.equal(shell(line).status, 0, line);
    const deaf = shell(`set -o pipefail; '${path.join(good, 'milecopper')}' frob 2>&1 >/dev/null | true`);
    assert.deepEqual([deaf.status, deaf.stderr], [2, '']);
});

test('options without their word, or with one too many', () => {
    for (const words of [['check', '--trips'], ['check', '--out='], ['check', '--help=yes'], ['check', '--', '--x', 'y']]) {
        const { status, stderr } = called(good, words);
        if (words[1] === '--out=') continue; // no file is written by checking
        assert.equal(status, 2, words.join(' '));
        assert.doesNotMatch(stderr, /\n {4}at /);
        assert.match(stderr, /^\.\/milecopper: .*\nusage: /);
    }
    const { status, stderr } = called(good, ['wages', SAMPLE, '--out', '']);
    assert.equal(status, 2);
    assert.match(stderr, /\n\.\/milecopper: cannot write in : not there\n$/);
});

test('50 MB of bad rows are told in little memory', () => {
    const place = folder('bad');
    const row = 'Anna Berg;2026-13-02;05:08;05:20;Bielefeld Universitaet;Bielefeld Hbf;;3;E;;;1\n';
    const rows = Math.ceil(50e6 / row.length);
    const header = fs.readFileSync(path.join(SAMPLE, 'trips.csv'), 'utf8').split('\n')[0];
    fs.writeFileSync(path.join(place, 'trips.csv'), `${header}\n${row.repeat(rows)}`);
    const env = { ...process.env, NODE_OPTIONS: '--max-old-space-size=160' }; // the text itself takes 50 of these
    const { status, stdout, stderr } = called(good, ['check', place], { env });
    assert.deepEqual([status, stderr], [2, '']);
    assert.match(stdout, new RegExp(`\\nerrors: ${4 * rows}, warnings: 0\\n$`));
    assert.equal(stdout.split('\n').length, 1003);
});
