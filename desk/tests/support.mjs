// What the tests share: the engine, the sample, and a run over texts.
import { execFileSync } from 'node:child_process';
import fs from 'node:fs';
import path from 'node:path';
import { fileURLToPath } from 'node:url';
import { mistakeLine } from '../mistakes.mjs';
import { runDesk } from '../run.mjs';
import { builtEngine } from './built.mjs';

export { numbers } from './numbers.mjs';

export const ROOT = path.dirname(path.dirname(path.dirname(fileURLToPath(import.meta.url))));
export const SAMPLE = path.join(ROOT, 'desk/sample');

export const sample = (name) => fs.readFileSync(path.join(SAMPLE, name), 'utf8');

/** The path of what host/built builds. */
export const built = (what) => execFileSync(path.join(ROOT, 'host/built'), [what], { encoding: 'utf8' }).trim();

export const engine = await builtEngine();

export const TRIPS = 'member,date,depart,arrive,from,to,via,class,level,adults,children,bicycles\n';

/** Runs the desk on the sample's tariff, or other files, and these trips. */
export function run(trips, { areas = sample('areas.csv'), stops = sample('stops.csv'), ...rest } = {}) {
    const { books, members, corrections, ...options } = rest;
    return runDesk({ engine, files: { areas, stops, trips, books, members, corrections }, language: 'en', ...options });
}

/** All that is said of a run's mistakes. */
export const said = (result) => result.mistakes.map((mistake) => mistakeLine(mistake, result.language));

/** The bytes of a block of docs/FORMAT.md. */
export function formatBytes(name) {
    const page = fs.readFileSync(path.join(ROOT, 'docs/FORMAT.md'), 'utf8');
    const block = page.split(`\`\`\`${name}\n`)[1].split('```')[0];
    return Uint8Array.from(block.split(/\s+/).filter(Boolean).map((byte) => parseInt(byte, 16)));
}
