// What other programs make of a member's trips, and the desk's entries in their words: for comparing them.
import assert from 'node:assert/strict';
import { spawnSync } from 'node:child_process';
import fs from 'node:fs';
import os from 'node:os';
import path from 'node:path';
import { tripBytes } from '../trips.mjs';

/** What a program prints in a folder with tariff.bin and roll.bin, which it also gets as its input. */
export function rollLines(program, words, tariff, trips) {
    const folder = fs.mkdtempSync(path.join(os.tmpdir(), 'roll-'));
    try {
        const input = Buffer.concat(trips.map(tripBytes));
        fs.writeFileSync(path.join(folder, 'tariff.bin'), tariff);
        fs.writeFileSync(path.join(folder, 'roll.bin'), input);
        const { stdout, status } = spawnSync(program, words, { cwd: folder, input, encoding: 'utf8' });
        assert.equal(status, 0);
        return stdout.trim().split('\n');
    } finally {
        fs.rmSync(folder, { recursive: true });
    }
}

/** What the program would print of a member, out of the desk's entries. */
export function deskLines({ entries }) {
    const lines = entries.flatMap(({ accepted, refusal, parts }, i) => {
        if (!accepted) return [`${i + 1} refused ${refusal.number}`];
        const cents = (part) => part.riders.reduce((sum, { charge }) => sum + charge, 0);
        return parts.map((part) => [i + 1, part.area, part.km, part.minutes, part.opening, cents(part)].join(' '));
    });
    const accepted = entries.filter((entry) => entry.accepted);
    const sum = accepted.reduce((all, { cents }) => all + cents, 0);
    const tail = `accepted ${accepted.length} refused ${entries.length - accepted.length} cents ${sum}`;
    return ['trip area km min open cents', ...lines, tail];
}
