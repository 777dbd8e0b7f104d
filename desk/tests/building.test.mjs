import assert from 'node:assert/strict';
import fs from 'node:fs';
import os from 'node:os';
import path from 'node:path';
import { test } from 'node:test';
import { builtWasm } from '../building.mjs';

const WORDS = { building: 'building', proved: (crate, all, name) => `${crate} of ${all}: ${name}` };

const PROVED = ['building', '0:00 2 of 4: wire', '0:00 3 of 4: milecopper', '0:00 4 of 4: milecopper_c'];

/** A checkout with stand-ins for the prover and the builder. */
function checkout(built) {
    const root = fs.mkdtempSync(path.join(os.tmpdir(), 'build-'));
    const script = (name, text) => fs.writeFileSync(path.join(root, name), `#!/bin/sh\n${text}\n`, { mode: 0o755 });
    const crates = ['# NAME: what it stands on', 'units:', 'wire: units', 'other: units', 'milecopper: wire', 'milecopper_c staticlib: milecopper', ''];
    fs.writeFileSync(path.join(root, 'crates.txt'), crates.join('\n'));
    for (const name of ['host', 'crates/units/src', 'crates/milecopper_c/src']) fs.mkdirSync(path.join(root, name), { recursive: true });
    fs.writeFileSync(path.join(root, 'crates/units/src/lib.rt'), '');
    fs.mkdirSync(path.join(root, 'target/native'), { recursive: true });
    // units is proved already
    const lines = ['wire', 'milecopper', 'milecopper_c'].flatMap((name) => [`rt: chose --jobs 2 for ${name}`, `fn ${name}::one: proved`, 'logic=proved functions=1']);
    script('rt', ['[ "${PWD##*/} $1" = "milecopper_c check" ] || exit 1', ...lines.map((line) => `echo '${line}'`)].join('\n'));
    script('host/built', built);
    return root;
}

async function told(root) {
    const lines = [];
    const before = process.env.PATH;
    process.env.PATH = `${root}:${before}`;
    try {
        return { wasm: await builtWasm(root, WORDS, (line) => lines.push(line.replace(/^\d+:\d\d /, '0:00 '))), lines };
    } finally {
        process.env.PATH = before;
        fs.rmSync(root, { recursive: true });
    }
}

/** A builder that has it already where `had` is 0, and else builds it with this status. */
const builder = (had, status) =>
    `[ "$1" = --have ] && exit_with=${had} || exit_with=${status}\n[ $exit_with -ne 0 ] || echo /some/milecopper.wasm\nexit $exit_with`;

test('the first time each crate that is proved is told, of how many', async () => {
    assert.deepEqual(await told(checkout(builder(3, 0))), {
        wasm: '/some/milecopper.wasm',
        lines: PROVED,
    });
});

test('where it is there, nothing is told and nothing proved, and no prover is asked for', async () => {
    const root = checkout(builder(0, 1));
    fs.rmSync(path.join(root, 'rt'));
    assert.deepEqual(await told(root), { wasm: '/some/milecopper.wasm', lines: [] });
});

test('where it is not of this state, it is told again; and a building that fails gives nothing', async () => {
    assert.deepEqual((await told(checkout(builder(3, 0)))).lines, PROVED);
    assert.equal((await told(checkout(builder(3, 1)))).wasm, null);
});
