// A torn roll: the program that salvages it is run in a folder of its own, and what it prints and leaves there is read.
import { spawnSync } from 'node:child_process';
import fs from 'node:fs';
import os from 'node:os';
import path from 'node:path';

export const KEPT = 'kept.bin';
const TOO_LONG = 'too long\n';

/** What comes of a roll's file: null where it is too long, else the bytes that are kept and the runs that are lost. */
export function salvaged(program, place) {
    const room = fs.mkdtempSync(path.join(os.tmpdir(), 'salvage-'));
    try {
        const printed = printedBy(program, place, room);
        if (printed === TOO_LONG) return null;
        const kept = new Uint8Array(fs.readFileSync(path.join(room, KEPT)));
        return { kept, trips: recordsIn(kept), lost: printed.split('\n').filter(Boolean).map(runOf) };
    } finally {
        fs.rmSync(room, { recursive: true, force: true });
    }
}

/**
 * What the program prints of the file. It has no status of its own: whatever it tells on standard error is a failure, and so
 * is an end by a signal.
 */
function printedBy(program, place, room) {
    const roll = fs.openSync(place, 'r');
    try {
        if (fs.fstatSync(roll).isDirectory()) throw Object.assign(new Error(place), { code: 'EISDIR' });
        const options = { cwd: room, stdio: [roll, 'pipe', 'pipe'], encoding: 'latin1' };
        const { status, signal, error, stdout, stderr } = spawnSync(program, [], options);
        if (error) throw error;
        if (stderr !== '') throw new Error(stderr);
        if (status !== 0) throw new Error(`${path.basename(program)}: ${signal ?? `status ${status}`}`);
        return stdout;
    } finally {
        fs.closeSync(roll);
    }
}

/** A line's run: its offset and its length. */
function runOf(line) {
    const [offset, length] = line.split(' ').map(Number);
    return { offset, length };
}

/** How many records stand one behind the other: two bytes say how many follow them. */
function recordsIn(bytes) {
    let count = 0;
    for (let at = 0; at < bytes.length; at += 2 + bytes[at] + 256 * bytes[at + 1]) count += 1;
    return count;
}
