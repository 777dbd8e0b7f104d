// What the desk says that corrections change is what the library says, milecopper_correct: there a roll is settled from
// fresh books with one record exchanged, so several corrections are made one after another.
import assert from 'node:assert/strict';
import { test } from 'node:test';
import { tripBytes } from '../trips.mjs';
import { wasmBytes } from './built.mjs';
import { changesOf, corrected, rowsText as text } from './corrected.mjs';
import { TRIPS, engine, numbers, run } from './support.mjs';

const DIFFERENCES = 248;
const PARTY = 31; // the holder, ten adults, ten children, ten bicycles

/** The library's function, on slices that are copied into its memory one behind another. */
async function library() {
    const { instance } = await WebAssembly.instantiate(await wasmBytes());
    const { memory, __heap_base, milecopper_correct } = instance.exports;
    const bytes = new Uint8Array(memory.buffer);
    return (tariff, roll, n, replacement, most) => {
        let free = __heap_base.value;
        const lend = (slice) => {
            bytes.set(slice, free);
            free += slice.length;
            return [free - slice.length, BigInt(slice.length)];
        };
        const [statements, differences] = [lend(new Uint8Array(most)), lend(new Uint8Array(DIFFERENCES))];
        const given = [...lend(tariff), ...lend(roll), n, ...lend(replacement), ...statements, ...differences];
        const answer = Number(BigInt.asUintN(64, milecopper_correct(...given)));
        const view = new DataView(memory.buffer, differences[0], DIFFERENCES);
        return {
            answer,
            statements: bytes.slice(statements[0], statements[0] + (answer < 2 ** 32 ? answer : 0)),
            differences: Array.from({ length: PARTY }, (_, slot) => Number(view.getBigInt64(8 * slot, true))),
        };
    };
}

const correct = await library();
const joined = (records) => Uint8Array.from(records.flatMap((record) => [...record]));

/** What the library says of a roll whose records become others, null for one that is cancelled: from the last on. */
function byLibrary(tariff, records, others) {
    const sum = Array.from({ length: PARTY }, () => 0);
    let [roll, statements] = [records, null];
    for (let n = records.length; n >= 1; n -= 1) {
        const replacement = others[n - 1] ?? new Uint8Array(0);
        const outcome = correct(tariff, joined(roll), n, replacement, 532 * records.length);
        assert.ok(outcome.answer < 2 ** 32, `refused with ${Math.floor(outcome.answer / 2 ** 32)}`);
        outcome.differences.forEach((difference, slot) => (sum[slot] += difference));
        roll = roll.with(n - 1, replacement);
        statements = outcome.statements;
    }
    return { differences: sum, charges: chargesIn(statements) };
}

/** The charges of all records of statements, as the library reads them. */
function chargesIn(statements) {
    const charges = [];
    for (let at = 0; at < statements.length; ) {
        const { size, fields } = engine.read(statements, at);
        charges.push(fields.charges.map(({ cents }) => cents));
        at += size;
    }
    return charges;
}

/** The same out of what the desk says. */
function byDesk({ differences, members: [member] }) {
    const slots = Array.from({ length: PARTY }, () => 0);
    const first = { holder: 0, adult: 0, child: 10, bicycle: 20 }; // numbers count from 1
    for (const { who, difference } of differences.filter((row) => row.who)) {
        slots[who.sort === 'holder' ? 0 : first[who.sort] + who.number] = difference;
    }
    const parts = (member?.entries ?? []).flatMap((entry) => entry.parts ?? []);
    return { differences: slots, charges: parts.map(({ riders }) => riders.map(({ charge }) => charge)) };
}

/** A random ride on an hour of its own, so that its place among the others stays whatever is corrected. */
function randomRide(below, i) {
    const stops = ['Münster Hbf', 'Hamm Hbf', 'Bielefeld Hbf', 'Aachen Hbf', 'Bielefeld Rathaus', 'Hamm Betriebshof'];
    const [day, hour] = [1 + Math.floor(i / 6), 4 + 3 * (i % 6)];
    const end = hour + [0, 1, 2, 4][below(4)]; // the last runs into the next one, which is refused then
    const times = [`${hour}:0${below(10)}`, `${end}:${10 + below(49)}`];
    const ride = [stops[below(6)], stops[below(6)], '', 1 + below(2), ''];
    return ['Anna', `2026-10-0${day}`, ...times, ...ride, below(3), below(3), below(3)];
}

test('random corrections of a member: differences and statements are those of milecopper_correct', () => {
    const seen = { less: 0, more: 0, refused: 0, cancelled: 0 };
    for (let seed = 1; seed <= 30; seed += 1) {
        const below = numbers(seed);
        const rides = Array.from({ length: 16 }, (_, i) => randomRide(below, i));
        const after = rides.map((ride, i) => [ride, ride, ride, null, randomRide(below, i)][below(5)]);
        const result = corrected(TRIPS + text(rides), changesOf(rides, after));
        const was = run(TRIPS + text(rides)).members[0].entries;
        const now = new Map(result.members[0].entries.map((entry) => [entry.line, tripBytes(entry)]));
        const others = was.map(({ line }) => now.get(line) ?? null);
        const due = byLibrary(result.tariff.bytes, was.map(tripBytes), others);
        assert.deepEqual(byDesk(result), due, `seed ${seed}`);
        seen.less += due.differences.filter((difference) => difference < 0).length;
        seen.more += due.differences.filter((difference) => difference > 0).length;
        seen.refused += result.refused;
        seen.cancelled += result.corrections?.cancelled.length ?? 0;
    }
    for (const [what, count] of Object.entries(seen)) assert.ok(count > 20, `${what}: ${count}`);
});
