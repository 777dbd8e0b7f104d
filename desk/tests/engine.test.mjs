import assert from 'node:assert/strict';
import { test } from 'node:test';
import * as binding from '../engine.mjs';
import { builtEngine, bytesOf, textOf, wasmBytes } from './built.mjs';

const engine = await builtEngine();
const header = await textOf('include/milecopper.h');
const tariff = await bytesOf('samples/tariff.bin');
const freshBook = () => new Uint8Array(binding.BOOK_BYTES);
const joined = (...slices) => Uint8Array.from(slices.flatMap((slice) => [...slice]));
const longer = (slice, length) => {
    const bytes = new Uint8Array(length);
    bytes.set(slice);
    return bytes;
};
const changed = (slice, at, value) => {
    const bytes = slice.slice();
    bytes[at] = value;
    return bytes;
};

// A trip in winter time: check-in and check-out are [year, month, day, hour, minute].
const stamp = ([year, ...rest]) => [year & 255, year >> 8, ...rest, 1];
const LATE = { from: [2026, 10, 31, 23, 50], to: [2026, 11, 1, 0, 15], counts: [2, 0, 0, 0, 0], stops: [0, 1] };
function tripOf(given) {
    const { from, to, counts, stops } = { ...LATE, ...given };
    const body = [...stamp(from), ...stamp(to), ...counts, stops.length, ...stops.flatMap((n) => [n & 255, n >> 8])];
    return Uint8Array.from([2 + body.length, 0, 7, 0, ...body]);
}

// The record that opens an edition.
const opening = (year, month, day) => Uint8Array.of(6, 0, 9, 0, year & 255, year >> 8, month, day);
const OPENING = opening(2000, 1, 1).length;

// The records of a roll, one after another.
function* recordsOf(roll) {
    for (let at = 0; at < roll.length; ) {
        const end = at + 2 + roll[at] + 256 * roll[at + 1];
        yield roll.subarray(at, end);
        at = end;
    }
}

// The bytes that docs/FORMAT.md shows under a name.
const pages = await textOf('docs/FORMAT.md');
const shown = (name) => {
    const [, text] = pages.match(new RegExp('```' + name + '\\n([^`]*)```'));
    return Uint8Array.from(text.trim().split(/\s+/), (word) => Number.parseInt(word, 16));
};

const refused = (answer, number, place = 0) => {
    assert.equal(answer.accepted, false);
    assert.deepEqual(Object.keys(answer), ['accepted', 'refusal']);
    assert.deepEqual([answer.refusal.number, answer.refusal.place], [number, place]);
    for (const language of ['de', 'en']) {
        assert.equal(answer.refusal.text[language], engine.refusalText(number, language));
        assert.match(answer.refusal.text[language], /^\p{Lu}.*\.$/u);
    }
};

test('lengths and version are those of the header', () => {
    const number = (name) => Number(header.match(new RegExp(`#define MILECOPPER_${name} (\\d+)`))[1]);
    for (const part of ['BOOK', 'LARGEST_TARIFF', 'LARGEST_STATEMENT', 'LARGEST_FIELDS']) {
        assert.equal(binding[`${part}_BYTES`], number(`${part}_BYTES`), part);
    }
    const version = ['MAJOR', 'MINOR', 'PATCH'].map((part) => number(`VERSION_${part}`)).join('.');
    assert.equal(engine.version, version);
});

test('the module offers what the header declares, asks for nothing and cannot grow', async () => {
    const module = new WebAssembly.Module(await wasmBytes());
    assert.deepEqual(WebAssembly.Module.imports(module), []);
    const functions = WebAssembly.Module.exports(module).filter(({ kind }) => kind === 'function');
    const declared = [...header.matchAll(/^uint64_t (milecopper_\w+)\(/gm)].map(([, name]) => name);
    assert.deepEqual(functions.map(({ name }) => name).sort(), declared.sort());
    // Those on a page of accounts are not bound: a page does not fit into the module's memory, and the desk has none.
    // Nor is the one that corrects a roll: that of a month does not fit either, and the desk settles its trips twice.
    const onPages = ['milecopper_add', 'milecopper_close', 'milecopper_settle_member'];
    const bound = declared.filter((name) => ![...onPages, 'milecopper_correct'].includes(name));
    assert.deepEqual(Object.keys(binding.FUNCTIONS).sort(), bound.sort());
    const { memory } = new WebAssembly.Instance(module).exports;
    assert.throws(() => memory.grow(1), RangeError);
});

test('the examples of docs/FORMAT.md', () => {
    const examples = [
        ['tariff', 'trip', 'record'],
        ['tariff', 'october-trip', 'october-record'],
        ['tariff', 'ride-out-and-back', 'two-records'],
        ['aachen-tariff', 'aachen-trip', 'aachen-record'],
    ];
    for (const [prices, trip, records] of examples) {
        const settled = engine.settle(shown(prices), freshBook(), shown(trip));
        assert.ok(settled.accepted, trip);
        assert.deepEqual(settled.statement, shown(records), trip);
        assert.equal(settled.book.length, binding.BOOK_BYTES);
    }
});

test('quoted and posted, the sample roll gives what settling gives', async () => {
    let [book, cents, accepted, refusals] = [freshBook(), 0, 0, 0];
    for (const trip of recordsOf(await bytesOf('samples/roll.bin'))) {
        const before = book.slice();
        const quote = engine.quote(tariff, book, trip);
        const settled = engine.settle(tariff, book, trip);
        assert.deepEqual(book, before);
        if (!settled.accepted) {
            assert.deepEqual(quote, settled);
            refusals += 1;
            continue;
        }
        assert.deepEqual(quote, { accepted: true, statement: settled.statement });
        const posted = engine.post(tariff, book, trip, quote.statement);
        assert.deepEqual(posted, { accepted: true, book: settled.book });
        for (let at = 0; at < settled.statement.length; ) {
            const { size, fields } = engine.read(settled.statement, at);
            cents += fields.charges.reduce((sum, charge) => sum + charge.cents, 0);
            at += size;
        }
        accepted += 1;
        book = settled.book;
    }
    assert.deepEqual({ accepted, refusals, cents }, { accepted: 13, refusals: 1, cents: 10668 });
});

test('a record, read back', () => {
    const fresh = { off: 0, capArea: 255, capClass: 0 };
    const fields = { kind: 6, opening: 14113370, area: 0, km: 5, minutes: 25, adults: 0, children: 1, bicycles: 1 };
    const charges = [320, 160, 500].map((cents) => ({ cents, ...fresh }));
    assert.deepEqual(engine.read(shown('record'), 0), { accepted: true, size: 40, fields: { ...fields, charges } });
    const second = engine.read(shown('two-records'), 40);
    assert.deepEqual([second.size, second.fields.minutes, second.fields.charges[2].cents], [40, 0, 0]);
    const cut = engine.read(shown('cut-record'), 0).fields.charges;
    assert.deepEqual(cut[0], { cents: 120, off: 200, capArea: 0, capClass: 2 });
    assert.deepEqual(cut[1], { cents: 60, off: 100, capArea: 0, capClass: 2 });
    refused(engine.read(shown('record'), 40), 14);
    refused(engine.read(shown('record'), 41), 14);
    refused(engine.read(shown('record').subarray(0, 39), 0), 14);
    refused(engine.read(shown('trip'), 0), 15);
    refused(engine.read(changed(shown('record'), 8, 32), 0), 16);
});

test('every refusal, as an object', () => {
    const trip = tripOf({});
    const settled = (...given) => engine.settle(...given);
    const cut = tariff.subarray(0, tariff.length - 1);
    refused(engine.checkTariff(cut), 1, tariff.length - 13);
    refused(engine.checkTariff(new Uint8Array(0)), 2, 0);
    refused(engine.checkTariff(tariff.subarray(OPENING)), 2, 0);
    refused(engine.checkTariff(changed(tariff, OPENING + 4, 3)), 3, OPENING);
    refused(settled(cut, freshBook(), trip), 1, tariff.length - 13);
    refused(settled(tariff, freshBook().subarray(1), trip), 4);
    refused(settled(tariff, freshBook(), trip.subarray(1)), 5);
    refused(settled(tariff, freshBook(), tripOf({ counts: [3, 0, 0, 0, 0] })), 6);
    refused(settled(tariff, freshBook(), tripOf({ stops: [0, 1000] })), 7);
    refused(settled(tariff, freshBook(), tripOf({ from: [2026, 2, 29, 0, 0] })), 8);
    refused(settled(tariff, freshBook(), tripOf({ to: [2026, 10, 31, 23, 49] })), 9);
    refused(settled(tariff, freshBook(), tripOf({ to: [2026, 10, 31, 23, 52], stops: [1, 1, 1] })), 17);
    assert.ok(settled(tariff, freshBook(), tripOf({ to: [2026, 10, 31, 23, 53], stops: [1, 1, 1] })).accepted);
    const { book, statement } = settled(tariff, freshBook(), trip);
    refused(settled(tariff, book, tripOf({ to: [2026, 10, 31, 23, 52], stops: [1, 1] })), 17);
    refused(settled(tariff, book, trip), 10);
    const later = joined(opening(2026, 11, 1), tariff.subarray(OPENING));
    for (const stops of [[0, 1], [0, 1000]]) refused(settled(later, freshBook(), tripOf({ stops })), 22);
    refused(engine.quote(later, freshBook(), trip), 22);
    refused(engine.post(later, freshBook(), trip, statement), 22);
    refused(settled(later, book, trip), 10);
    refused(engine.quote(tariff, book, trip), 10);
    refused(engine.post(tariff, book, trip, statement), 10);
    refused(engine.post(tariff, freshBook(), trip, statement.subarray(1)), 13);
    const still = tripOf({ to: [2026, 10, 31, 23, 50] });
    let full = freshBook();
    for (let i = 0; i < 256; i += 1) full = settled(tariff, full, still).book;
    refused(settled(tariff, full, still), 11);
});

test('editions: the book says which, and decides while its window is open', () => {
    const base = OPENING + 6; // of the state, whose areas the sample's first two stops are in
    const dear = Uint8Array.from(tariff.subarray(OPENING));
    for (let at = 0; dear[at + 2] === 1 || dear[at + 2] === 8; at += 2 + dear[at]) dear[at + 6] += 7;
    const file = joined(tariff, opening(2026, 11, 1), dear);
    assert.deepEqual(engine.checkTariff(file), { accepted: true, bytes: file.length });
    assert.notEqual(tariff[base], dear[base - OPENING]);
    const edition = (book) => new DataView(book.buffer).getUint32(binding.BOOK_BYTES - 4, true);
    const cents = ({ statement }) => engine.read(statement, 0).fields.charges[0].cents;
    const first = engine.settle(file, freshBook(), tripOf({}));
    const noon = { from: [2026, 11, 1, 12, 0], to: [2026, 11, 1, 12, 25] };
    const within = engine.settle(file, first.book, tripOf(noon));
    const fresh = engine.settle(file, freshBook(), tripOf(noon));
    const next = engine.settle(file, within.book, tripOf({ from: [2026, 11, 2, 12, 0], to: [2026, 11, 2, 12, 25] }));
    assert.deepEqual([first, within, fresh, next].map(({ book }) => edition(book)), [1, 1, 2, 2]);
    assert.equal(cents(fresh), cents(next));
    assert.equal(cents(fresh) - cents(engine.settle(tariff, freshBook(), tripOf(noon))), 7);
    refused(engine.settle(tariff, fresh.book, tripOf({ from: [2026, 11, 2, 12, 0], to: [2026, 11, 2, 12, 25] })), 4);
    refused(engine.settle(file, changed(first.book, binding.BOOK_BYTES - 4, 0), tripOf(noon)), 4);
    refused(engine.settle(file, changed(freshBook(), binding.BOOK_BYTES - 4, 1), tripOf(noon)), 4);
});

test('slices of any length get the answer of the whole slice, in the memory that is there', () => {
    const [none, huge, trip] = [new Uint8Array(0), 1 << 24, tripOf({})];
    assert.deepEqual(engine.checkTariff(tariff), { accepted: true, bytes: tariff.length });
    refused(engine.settle(none, none, none), 2, 0);
    refused(engine.settle(tariff, none, none), 4);
    refused(engine.settle(tariff, freshBook(), none), 5);
    refused(engine.post(tariff, freshBook(), trip, none), 13);
    refused(engine.checkTariff(longer(none, huge)), 1, 0);
    refused(engine.checkTariff(longer(tariff, huge)), 1, tariff.length);
    refused(engine.settle(tariff, longer(none, binding.BOOK_BYTES + 1), trip), 4);
    refused(engine.settle(tariff, longer(none, huge), trip), 4);
    refused(engine.settle(tariff, freshBook(), longer(trip, trip.length + 1)), 5);
    refused(engine.settle(tariff, freshBook(), longer(trip, huge)), 5);
    const { statement } = engine.quote(tariff, freshBook(), trip);
    refused(engine.post(tariff, freshBook(), trip, longer(statement, statement.length + 1)), 13);
    refused(engine.post(tariff, freshBook(), trip, longer(statement, huge)), 13);
    assert.equal(engine.read(longer(statement, huge), 0).size, statement.length);
    refused(engine.read(longer(statement, huge), statement.length), 14);
    assert.deepEqual(engine.settle(tariff, freshBook(), trip).statement, statement);
});

test('the largest tariff, and longer ones: the first record too many decides', () => {
    const state = shown('tariff').subarray(OPENING, OPENING + 29);
    const region = shown('aachen-tariff').subarray(OPENING + 29, OPENING + 71);
    const factor = [4, 0, 5, 0, 3, 0];
    const stop = shown('tariff').subarray(OPENING + 35, OPENING + 48);
    const repeated = (record, times) => joined(...Array(times).fill(record));
    const whole = joined(state, repeated(region, 31), repeated(factor, 32), repeated(stop, 1000));
    const largest = joined(opening(2000, 1, 1), whole, opening(2000, 1, 2), whole);
    assert.deepEqual(engine.checkTariff(largest), { accepted: true, bytes: binding.LARGEST_TARIFF_BYTES });
    const end = binding.LARGEST_TARIFF_BYTES;
    refused(engine.checkTariff(joined(largest, stop)), 2, end);
    refused(engine.checkTariff(longer(joined(largest, stop), 1 << 22)), 2, end);
    refused(engine.checkTariff(joined(largest, opening(2000, 1, 3), whole)), 2, end);
    // the longest record: whole, a byte short, and with a length that none has
    const claims = (length, bytes) => longer(joined(largest, [length & 255, length >> 8, 9, 0]), end + bytes);
    refused(engine.checkTariff(claims(1024, 1026)), 2, end);
    refused(engine.checkTariff(claims(1024, 1 << 20)), 2, end);
    refused(engine.checkTariff(claims(1024, 1025)), 1, end);
    refused(engine.checkTariff(claims(1025, 1 << 20)), 1, end);
});

test('what is lent stays, and what is given back belongs to the caller', () => {
    const [book, trip] = [freshBook(), tripOf({})];
    const given = [tariff, book, trip].map((slice) => slice.slice());
    const first = engine.settle(tariff, book, trip);
    assert.deepEqual([tariff, book, trip], given);
    const kept = { statement: first.statement.slice(), book: first.book.slice() };
    engine.settle(tariff, first.book, tripOf({ from: [2026, 11, 1, 1, 0], to: [2026, 11, 1, 1, 9] }));
    assert.deepEqual({ statement: first.statement, book: first.book }, kept);
});

// ---- Under a monthly ceiling

const fresh = () => new Uint8Array(binding.KEPT_BYTES);
const pair = (month, cents) => Uint8Array.from(new Uint8Array(Uint32Array.of(month, cents).buffer));
const monthly = (ceiling, kept, trip) => engine.settleMonth(ceiling, kept, tariff, freshBook(), trip);

test('under a monthly ceiling a trip collects what the month has left, and statement and book are uncut', () => {
    const trip = tripOf({}); // of October 2026, month 321
    const { statement, book } = engine.settle(tariff, freshBook(), trip);
    const cents = engine.read(statement, 0).fields.charges.reduce((sum, charge) => sum + charge.cents, 0);
    assert.ok(cents > 2);
    const cases = [
        ...[[1000000, fresh(), cents, cents], [0, fresh(), 0, 0], [cents - 1, fresh(), cents - 1, cents - 1]],
        ...[[cents + 1, pair(321, 2), cents - 1, cents + 1], [5, pair(321, 7), 0, 7]], // what is left; one that is passed
        ...[[1000000, pair(320, 999999), cents, cents], [1, pair(322, 1), 1, 1]], // other months, an earlier one too
    ];
    for (const [ceiling, kept, due, amount] of cases) {
        const lent = kept.slice();
        const answer = monthly(ceiling, kept, trip);
        assert.deepEqual(answer, { accepted: true, statement, book, kept: pair(321, amount), due }, `${ceiling}`);
        assert.deepEqual(kept, lent);
    }
});

test('refusal 24 comes before all others: a ceiling or an amount that is too large, and what is not of 8 bytes', () => {
    const trip = tripOf({});
    assert.equal(monthly(1000000, pair(321, 1000000), trip).due, 0);
    for (const ceiling of [1000001, 2 ** 31, 2 ** 32 - 1]) refused(monthly(ceiling, fresh(), trip), 24);
    for (const kept of [pair(321, 1000001), new Uint8Array(7), new Uint8Array(9), new Uint8Array(0)]) {
        refused(monthly(0, kept, trip), 24);
        refused(engine.settleMonth(0, kept, new Uint8Array(0), new Uint8Array(3), new Uint8Array(0)), 24);
    }
    refused(engine.settleMonth(0, fresh(), new Uint8Array(0), freshBook(), trip), 2);
    refused(engine.settleMonth(0, fresh(), tariff, freshBook().subarray(1), trip), 4);
});

test('accounts under ceilings beside each other collect as single calls do, each what is its own', async () => {
    const trips = [...recordsOf(await bytesOf('samples/roll.bin'))];
    const ceilings = [0, 1500, 1000000];
    const accounts = ceilings.map((ceiling) => engine.open(tariff, freshBook(), put, { ceiling, kept: fresh() }));
    const singles = ceilings.map(() => ({ book: freshBook(), kept: fresh() }));
    let accepted = 0;
    for (const trip of trips) {
        ceilings.forEach((ceiling, i) => {
            const { book, kept } = singles[i];
            const due = engine.settleMonth(ceiling, kept, tariff, book, trip);
            const answer = accounts[i].settle(trip);
            assert.deepEqual([answer.accepted, answer.due, answer.refusal], [due.accepted, due.due, due.refusal]);
            if (due.accepted) singles[i] = due;
            accepted += due.accepted ? 1 : 0;
            assert.deepEqual(accounts[i].kept(), singles[i].kept);
        });
    }
    assert.ok(accepted > 0 && accepted < 3 * trips.length);
    assert.deepEqual(accounts.map((account) => account.book()), singles.map(({ book }) => book));
    assert.deepEqual(accounts[0].book(), accounts[2].book());
});

// Accounts settle what single calls settle, and nobody's tariff or book gets into another's.
const put = (room, trip) => (room.set(trip), trip.length);

function singly(prices, trips) {
    let book = freshBook();
    const answers = trips.map((trip) => {
        const answer = engine.settle(prices, book, trip);
        if (!answer.accepted) return answer;
        book = answer.book;
        const records = [];
        for (let at = 0; at < answer.statement.length; at += engine.read(answer.statement, at).size) {
            records.push(engine.read(answer.statement, at).fields);
        }
        return { accepted: true, records };
    });
    return { answers, book };
}

test('an account settles trips as single calls do, refused ones too', async () => {
    const trips = [...recordsOf(await bytesOf('samples/roll.bin'))];
    const due = singly(tariff, trips);
    const account = engine.open(tariff, freshBook(), put);
    assert.deepEqual(trips.map((trip) => account.settle(trip)), due.answers);
    assert.deepEqual(account.book(), due.book);
    assert.ok(due.answers.some(({ accepted }) => !accepted));
});

test('accounts beside each other and single calls between: another tariff is taken when one is given', async () => {
    const trips = [...recordsOf(await bytesOf('samples/roll.bin'))].slice(0, 6);
    const base = OPENING + 2 * 29 + 6; // the place of the third area's base price
    const others = [changed(tariff, base, tariff[base] + 5), tariff, changed(tariff, base, 1)];
    const accounts = others.map((prices) => engine.open(prices, freshBook(), put));
    const answers = others.map(() => []);
    for (const trip of trips) {
        accounts.forEach((account, i) => {
            answers[i].push(account.settle(trip));
            engine.quote(others[(i + 1) % 3], freshBook(), trip);
            engine.checkTariff(new Uint8Array(3));
        });
    }
    const due = others.map((prices) => singly(prices, trips));
    assert.deepEqual(answers, due.map((one) => one.answers));
    assert.deepEqual(accounts.map((account) => account.book()), due.map(({ book }) => book));
    assert.notDeepEqual(answers[0], answers[1]);
    const words = (book) => new DataView(book.buffer).getUint32(0, true);
    assert.deepEqual(accounts.map((account) => account.view().getUint32(0, true)), due.map(({ book }) => words(book)));
});

test('an account leaves the book that is lent, and gives back one of its own', () => {
    const lent = freshBook();
    const account = engine.open(tariff, lent, put);
    account.settle(tripOf({}));
    const book = account.book();
    assert.deepEqual(lent, freshBook());
    account.settle(tripOf({ from: [2026, 11, 1, 1, 0], to: [2026, 11, 1, 1, 9] }));
    assert.notDeepEqual(account.book(), book);
    refused(engine.open(tariff, lent.subarray(1), put).settle(tripOf({})), 4);
    refused(engine.open(new Uint8Array(0), lent, put).settle(tripOf({})), 2, 0);
});

test('what are no bytes, or no offset, is told at once', () => {
    assert.throws(() => engine.checkTariff([1, 2, 3]), TypeError);
    assert.throws(() => engine.settle(tariff, undefined, tripOf({})), TypeError);
    for (const at of [-1, 0.5, NaN, 2 ** 53]) assert.throws(() => engine.read(shown('record'), at), RangeError);
});
