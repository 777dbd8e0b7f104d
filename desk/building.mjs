// What the command runs, the engine and the program that salvages rolls: built on first use, and told while that goes on.
import { spawn } from 'node:child_process';
import fs from 'node:fs';
import path from 'node:path';
import { createInterface } from 'node:readline';

/** The path of milecopper.wasm, built where it is not there or not of this state; null where that failed. */
export const builtWasm = (root, words, tell) => built(root, 'wasm', 'milecopper_c', words, tell);

/** The path of the program that salvages rolls, likewise. */
export const builtSalvager = (root, words, tell) => built(root, 'salvager', 'salvage_roll', words, tell);

async function built(root, what, crate, words, tell) {
    const builder = path.join(root, 'host/built');
    const lines = [];
    const had = await run(root, builder, ['--have', what], 'ignore', (line) => lines.push(line));
    if (had === 0) return lines.at(-1);
    await proved(root, crate, words, tell);
    const status = await run(root, builder, [what], 'inherit', (line) => lines.push(line));
    return status === 0 ? lines.at(-1) : null;
}

/**
 * Proves the crates, which takes the time, and tells of each as it is proved, with the time since the start. Each comes behind those that it stands on,
 * and nothing is said of one that is proved already. Whether it went well, the building shows.
 */
async function proved(root, due, words, tell) {
    const all = cratesBelow(root, due);
    const start = Date.now();
    let crate = null;
    tell(words.building);
    await run(path.join(root, 'crates', due), 'rt', ['check'], 'ignore', (line) => {
        crate = /^rt: chose --jobs \S+ for (\S+)$/.exec(line)?.[1] ?? crate;
        if (!line.startsWith('logic=proved ') || !all.includes(crate)) return;
        tell(`${minutesSince(start)} ${words.proved(all.indexOf(crate) + 1, all.length, crate)}`);
    });
}

/** Minutes and seconds since then, '2:05'. */
function minutesSince(start) {
    const seconds = Math.floor((Date.now() - start) / 1000);
    return `${Math.floor(seconds / 60)}:${String(seconds % 60).padStart(2, '0')}`;
}

/** A crate and all that it stands on, but for the toolchain's own libraries, each behind those that it stands on itself: so they are proved. */
function cratesBelow(root, due) {
    const lines = fs.readFileSync(path.join(root, 'crates.txt'), 'utf8').split('\n').filter((line) => /^[a-z]/.test(line));
    const crates = new Map(lines.map((line) => line.split(':').map((part) => part.split(/\s+/).filter(Boolean))).map(([[name], below]) => [name, below]));
    const found = [];
    const put = (name) => {
        if (!crates.has(name) || found.includes(name)) return;
        for (const other of crates.get(name)) put(other);
        found.push(name);
    };
    put(due);
    return found;
}

/** Runs a program, gives each line that it prints to `take`, and answers its status; 127 where there is none such. */
function run(cwd, program, args, errors, take) {
    return new Promise((resolve) => {
        const child = spawn(program, args, { cwd, stdio: ['ignore', 'pipe', errors] });
        createInterface({ input: child.stdout }).on('line', take);
        child.on('error', () => resolve(127));
        child.on('close', (status) => resolve(status ?? 1));
    });
}
