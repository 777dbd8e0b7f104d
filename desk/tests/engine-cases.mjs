// usage: cases SEED | node desk/tests/engine-cases.mjs MILECOPPER.WASM
//
// Cases of the differential test come on standard input, as host/src/bin/cases.rs writes them, with the model's
// answers. Each is called in the engine; the answer and every byte of every slice are compared. Ends with status 1 at
// the first difference, and where there are too few cases in all or of one refusal.
import { readFileSync, readSync } from 'node:fs';
import { loadLibrary } from '../engine.mjs';

const FEWEST = 20000;
const FEWEST_OF_EACH = 100;
const SAME = 0xffffffff;
const [CHECK, SETTLE, QUOTE, POST, READ] = ['check_tariff', 'settle', 'quote', 'post', 'read'].map(
    (name) => `milecopper_${name}`,
);
const NAMES = [CHECK, SETTLE, QUOTE, POST, READ];
const REFUSALS = [...Array.from({ length: 17 }, (_, i) => i + 1), 22]; // those of pages are not met

// Standard input, so many bytes at a time.
class Input {
    constructor() {
        this.bytes = Buffer.alloc(1 << 20);
        this.start = 0;
        this.end = 0;
    }

    // Whether so many more bytes are there.
    has(count) {
        if (this.bytes.length - this.start < count) {
            const bytes = Buffer.alloc(Math.max(this.bytes.length, count));
            this.bytes.copy(bytes, 0, this.start, this.end);
            [this.bytes, this.start, this.end] = [bytes, 0, this.end - this.start];
        }
        while (this.end - this.start < count) {
            const read = readSync(0, this.bytes, this.end, this.bytes.length - this.end, null);
            if (read === 0) return false;
            this.end += read;
        }
        return true;
    }

    // The next ones; those of an earlier call stay what they are.
    take(count) {
        if (!this.has(count)) throw new Error('the cases end in the middle of one');
        this.start += count;
        return this.bytes.subarray(this.start - count, this.start);
    }
}

const FOUR = ['tariff', 'book', 'trip', 'fourth'];

// The next case, or none. `last` holds the last slice of each name.
function nextCase(input, last) {
    if (!input.has(1)) return undefined;
    const slice = (name) => {
        const length = input.take(4).readUInt32LE(0);
        if (length !== SAME) last[name] = Uint8Array.from(input.take(length));
        return last[name];
    };
    const name = NAMES[input.take(1)[0]];
    const offset = name === READ ? input.take(8).readBigUInt64LE(0) : 0n;
    const lent = Object.fromEntries((name === READ ? ['kept', 'fields'] : FOUR).map((each) => [each, slice(each)]));
    const answer = input.take(8).readBigUInt64LE(0);
    const then = (name === READ ? ['fields'] : ['book', 'fourth']).map((each) => [each, slice(each)]);
    return { name, offset, lent, answer, then: { ...lent, ...Object.fromEntries(then) } };
}

// What the engine calls a function's slices, and which of the case's they are.
function slicesOf(name) {
    if (name === CHECK) return { tariff: 'tariff' };
    if (name === READ) return { records: 'kept', fields: 'fields' };
    return { tariff: 'tariff', book: 'book', trip: 'trip', [name === POST ? 'record' : 'statement']: 'fourth' };
}

// What is wrong with the engine's answer to a case, in words. Kept records are lent from the offset on, as the engine
// does it; the model was given all of them and the offset.
function faults(library, { name, offset, lent, answer, then }) {
    const from = (slice) => (slice === 'kept' ? Number(offset) : 0);
    const names = Object.entries(slicesOf(name));
    const slices = names.map(([given, slice]) => [given, lent[slice].subarray(from(slice))]);
    const called = library.call(name, Object.fromEntries(slices));
    const told = called.answer === answer ? [] : [`the answer is ${called.answer}, by the model ${answer}`];
    for (const [given, slice] of names) {
        const found = Uint8Array.from(lent[slice]);
        const after = called.after(given);
        if (after.length > 0) found.set(after, from(slice));
        if (Buffer.compare(found, then[slice]) !== 0) told.push(`the ${slice} is another than by the model`);
    }
    return told;
}

const library = await loadLibrary(readFileSync(process.argv[2]));
const last = Object.fromEntries([...FOUR, 'kept', 'fields'].map((name) => [name, new Uint8Array(0)]));
const input = new Input();
const counts = new Map([0, ...REFUSALS].map((number) => [number, 0])); // by refusal; 0 are those that were accepted
let cases = 0;
for (let next = nextCase(input, last); next !== undefined; next = nextCase(input, last)) {
    cases += 1;
    const told = faults(library, next);
    if (told.length > 0) {
        const hex = Object.entries(next.lent).map(([name, slice]) => `${name} ${Buffer.from(slice).toString('hex')}`);
        console.error([`case ${cases}, ${next.name}, at ${next.offset}:`, ...told, ...hex].join('\n'));
        process.exit(1);
    }
    const number = Number(next.answer >> 32n);
    counts.set(number, (counts.get(number) ?? 0) + 1);
}
const told = [...counts].map(([number, count]) => `${number}: ${count}`).join(', ');
console.log(`engine: ${cases} cases of the differential test, by refusal (0: accepted) ${told}`);
if (cases < FEWEST || [...counts.values()].some((count) => count < FEWEST_OF_EACH)) {
    console.error(`engine: too few cases, ${FEWEST} are due and ${FEWEST_OF_EACH} of each`);
    process.exit(1);
}
