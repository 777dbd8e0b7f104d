// The desk's charges are those of the program that settles a roll (crates/settle_roll), on the same trips: random ones
// of several members, mixed in one file, among them broken, refused and capped ones, in both clock-change nights too.
import assert from 'node:assert/strict';
import { test } from 'node:test';
import { STOPS, both } from './rheinland.mjs';
import { deskLines, rollLines } from './rolls.mjs';
import { TRIPS, built, numbers, run, sample } from './support.mjs';

const idsIn = (stops) => stops.split('\n').slice(1).filter(Boolean).map((line) => line.split(';')[0]);
const IDS = idsIn(sample('stops.csv'));
const IN_BOTH = idsIn(STOPS).filter((id) => IDS.includes(id));
const DAYS = ['2026-03-28', '2026-03-29', '2026-10-24', '2026-10-25', '2026-10-31', '2026-11-01', '2026-11-02'];
const CHANGE = ['2026-05-30', '2026-05-31', '2026-06-01', '2026-06-02'];

function randomTrip(below, member, ids, days) {
    const two = (number) => String(number).padStart(2, '0');
    const start = below(1440);
    const end = (start + below(4) * below(120)) % 1440;
    // In the nights of the clock the hour from 2 to 3 is left out here: it has tests of its own.
    const time = (minute) => `${two(Math.floor(minute / 60) === 2 ? 3 : Math.floor(minute / 60))}:${two(minute % 60)}`;
    const stop = () => ids[below(below(3) === 0 ? ids.length : 6)];
    const via = Array.from({ length: below(3) * below(2) }, stop).join('|');
    const few = () => (below(4) === 0 ? below(4) : '');
    const rest = [via, ['', '1', '2'][below(3)], ['', 'K', 'A', 'b', 'C', 'D'][below(6)], few(), few(), few()];
    return [`Member ${member}`, days[below(days.length)], time(start), time(end), stop(), stop(), ...rest].join(',');
}

/** Settles such trips of twenty seeds, compares all with the program, and counts what `kinds` says of each entry. */
function compared(ids, days, files, kinds) {
    const program = built('program');
    const seen = {};
    for (let seed = 1; seed <= 20; seed += 1) {
        const below = numbers(seed);
        const trips = Array.from({ length: 300 }, () => randomTrip(below, below(4), ids, days));
        const result = run(`${TRIPS}${trips.join('\n')}\n`, files);
        assert.equal(result.errors, 0, `seed ${seed}: ${result.mistakes[0]?.text}`);
        for (const member of result.members) {
            const due = rollLines(program, [], result.tariff.bytes, member.entries);
            assert.deepEqual(deskLines(member), due, `seed ${seed}, ${member.name}`);
            for (const kind of member.entries.flatMap(kinds)) seen[kind] = (seen[kind] ?? 0) + 1;
        }
    }
    return seen;
}

test('the charges are those of the roll program, line by line', () => {
    const seen = compared(IDS, DAYS, {}, ({ accepted, parts = [] }) => [
        accepted ? 'accepted' : 'refused',
        ...(parts.length === 2 ? ['broken'] : []),
        ...(parts.some(({ riders }) => riders.some(({ cap }) => cap !== null)) ? ['cut'] : []),
    ]);
    for (const what of ['accepted', 'refused', 'broken', 'cut']) assert.ok(seen[what] > 200, `${what}: ${seen[what]}`);
});

test('so they are over the change from one edition to another, in which all numbers move', () => {
    const since = 13893120; // 2026-06-01
    const seen = compared(IN_BOTH, CHANGE, both(), ({ accepted, edition, checkIn }) => {
        if (!accepted) return ['refused'];
        return [edition === 2 ? 'second' : checkIn.minute < since ? 'first' : 'in a window of the first'];
    });
    for (const what of ['first', 'in a window of the first', 'second']) {
        assert.ok(seen[what] > 100, `${what}: ${seen[what]}`);
    }
});
