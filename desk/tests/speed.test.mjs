// What 100,000 trips of 1,000 members may cost: 2.5 s of processor time and 300 MB, the command's start included. Machines differ, so the test
// fails at twice the time: an old way of reading or settling takes more than that.
import assert from 'node:assert/strict';
import { spawnSync } from 'node:child_process';
import fs from 'node:fs';
import os from 'node:os';
import path from 'node:path';
import { test } from 'node:test';
import { ROOT, SAMPLE, numbers, sample } from './support.mjs';

const MOST_SECONDS = 5;
const MOST_MEGABYTES = 300;

const MEMBERS = 1000;
const TRIPS_EACH = 100;

const two = (number) => String(number).padStart(2, '0');
const clockTime = (minute) => `${two(Math.floor(minute / 60))}:${two(minute % 60)}`;

/** Rows of trips, four a day: some with a change, in first class, with a ticket level or with others. */
function tripsText() {
    const below = numbers(5);
    const stops = sample('stops.csv').trim().split('\n').slice(1).map((row) => row.split(';')[1]);
    const stop = () => stops[below(stops.length)];
    const seldom = (of, text) => (below(of) === 0 ? text() : '');
    const row = (i) => {
        const member = `Crew ${Math.floor(i / TRIPS_EACH)}`;
        const [day, part] = [1 + Math.floor((i % TRIPS_EACH) / 4), i % 4];
        const start = 300 + 240 * part + below(120);
        const times = [`2026-10-${two(day)}`, clockTime(start), clockTime(start + 10 + below(100))];
        const party = seldom(4, () => `${below(2)};${below(3)};${below(2)}`) || ';;';
        const ride = [seldom(5, stop), seldom(10, () => 1), seldom(6, () => 'KABCD'[below(5)]), party];
        return [member, ...times, stop(), stop(), ...ride].join(';');
    };
    const header = sample('trips.csv').split('\n')[0];
    return `${header}\n${Array.from({ length: MEMBERS * TRIPS_EACH }, (_, i) => row(i)).join('\n')}\n`;
}

/** Runs the command's words, and says what they took. */
const MEASURED = `
import { main } from ${JSON.stringify(path.join(ROOT, 'desk/command.mjs'))};
const status = await main(process.argv.slice(2));
const { userCPUTime, systemCPUTime, maxRSS } = process.resourceUsage();
const seconds = (userCPUTime + systemCPUTime) / 1e6;
process.stderr.write(JSON.stringify({ status, seconds, megabytes: maxRSS / 1024 }));
`;

test('wages of 100,000 trips of 1,000 members', (context) => {
    const room = fs.mkdtempSync(path.join(os.tmpdir(), 'speed-'));
    context.after(() => fs.rmSync(room, { recursive: true }));
    for (const name of ['areas.csv', 'stops.csv']) fs.copyFileSync(path.join(SAMPLE, name), path.join(room, name));
    fs.writeFileSync(path.join(room, 'trips.csv'), tripsText());
    fs.writeFileSync(path.join(room, 'measured.mjs'), MEASURED);
    const words = [path.join(room, 'measured.mjs'), 'wages', room, '--period', '2026-10', '--language', 'en'];
    const took = () => {
        const { stdout, stderr } = spawnSync(process.execPath, words, { encoding: 'utf8', maxBuffer: 1e8 });
        const { status, ...cost } = JSON.parse(stderr.split('\n').at(-1));
        assert.ok([0, 1].includes(status), stderr.slice(0, 500));
        assert.equal(stdout.split('\n').length, MEMBERS + 2);
        context.diagnostic(`${cost.seconds.toFixed(2)} s, ${cost.megabytes.toFixed(0)} MB`);
        return cost;
    };
    // beside other work the same takes more processor time, so the best of up to three counts
    const costs = [took()];
    while (costs.length < 3 && costs.at(-1).seconds > MOST_SECONDS) costs.push(took());
    assert.ok(Math.min(...costs.map(({ seconds }) => seconds)) <= MOST_SECONDS, 'processor time');
    assert.ok(costs[0].megabytes <= MOST_MEGABYTES, 'memory');
});
