// The proved library, compiled for WebAssembly (host/built wasm), for Node and for browsers alike. Bytes go in and
// bytes come out: each slice is copied into the library's memory and what it wrote is copied out, so nothing that is
// lent or given back is shared with it. Only an account, for many trips on one book, leaves tariff and book in there.
import { refusalText } from './words.mjs';

// The lengths of include/milecopper.h, which says what they are of.
export const BOOK_BYTES = 5472;
export const LARGEST_TARIFF_BYTES = 29062;
export const LARGEST_STATEMENT_BYTES = 532;
export const LARGEST_FIELDS_BYTES = 324;

// What is kept of a month under a ceiling, and what a trip then collects.
export const KEPT_BYTES = 8;
export const DUE_BYTES = 4;

// A record's length stands in its first two bytes and counts up to 1,024 bytes behind them; one that claims more is
// broken.
export const LONGEST_RECORD_BYTES = 1026;

// The library's memory is one page that cannot grow, and a slice may be of any length. So at most these first bytes of
// each are copied and their number given as its length. They decide: the answer is that of the whole slice.
const DECIDING_BYTES = {
    // Proved, `first_file_decides` in crates/editions/proofs/Lengths.antt: the largest tariff and one record too many.
    tariff: LARGEST_TARIFF_BYTES + LONGEST_RECORD_BYTES,
    // A book of another length is refused whatever it holds.
    book: BOOK_BYTES + 1,
    // A trip is one record that fills its slice.
    trip: LONGEST_RECORD_BYTES + 1,
    // What is written is never longer, and a statement's further bytes are left alone.
    statement: LARGEST_STATEMENT_BYTES,
    // A posting's record is compared with what a quote would write.
    record: LARGEST_STATEMENT_BYTES + 1,
    // Of kept records only the one at the offset is read, and they are lent from there on (`read`).
    records: LONGEST_RECORD_BYTES,
    // What is written is never longer, and further bytes are left alone.
    fields: LARGEST_FIELDS_BYTES,
    // What is kept in another length is refused whatever it holds.
    kept: KEPT_BYTES + 1,
    // What is written is never longer, and further bytes are left alone.
    due: DUE_BYTES,
};

// The slices that each exported function takes, in order; `at` is the offset among them, 0 here, and `ceiling` is a
// number.
export const FUNCTIONS = {
    milecopper_check_tariff: ['tariff'],
    milecopper_settle: ['tariff', 'book', 'trip', 'statement'],
    milecopper_settle_month: ['ceiling', 'kept', 'tariff', 'book', 'trip', 'statement', 'due'],
    milecopper_quote: ['tariff', 'book', 'trip', 'statement'],
    milecopper_post: ['tariff', 'book', 'trip', 'record'],
    milecopper_read: ['records', 'at', 'fields'],
};

// The exported functions as they are, on slices: `call(name, slices)` gives the answer's number and, until the next
// call, what now stands in the bytes of each slice that were copied.
export async function loadLibrary(wasmBytes) {
    const { instance } = await WebAssembly.instantiate(wasmBytes);
    const { memory, __heap_base, milecopper_version, ...functions } = instance.exports;
    const bytes = new Uint8Array(memory.buffer);
    const places = placesFrom(__heap_base.value, bytes.length);
    const room = roomIn(bytes, places);
    const call = (name, slices) => {
        room.hold(null);
        const words = FUNCTIONS[name].flatMap((slice) => {
            if (slice === 'ceiling') return [slices.ceiling];
            return slice === 'at' ? [0n] : [places[slice], room.lend(slice, slices[slice])];
        });
        const answer = BigInt.asUintN(64, functions[name](...words));
        const after = (slice) => room.copied(slice, Math.min(slices[slice].length, DECIDING_BYTES[slice]));
        return { answer, after };
    };
    const open = (...given) => openIn(room, places, functions, ...given);
    return { version: textAt(bytes, milecopper_version.value), call, open };
}

/**
 * The memory in which slices are lent. An account may hold it, so that its tariff and book stay in there from one trip
 * to the next; before anyone else's are lent, it takes its book out.
 */
function roomIn(bytes, places) {
    let holder = null;
    const lend = (slice, lent) => {
        const decides = deciding(slice, lent);
        bytes.set(decides, places[slice]);
        return BigInt(decides.length);
    };
    const hold = (next) => {
        if (holder === next) return;
        holder?.leave();
        holder = next;
        holder?.enter();
    };
    const copied = (slice, length) => bytes.slice(places[slice], places[slice] + length);
    const trip = bytes.subarray(places.trip, places.trip + DECIDING_BYTES.trip);
    return { lend, hold, copied, trip, view: new DataView(bytes.buffer) };
}

/**
 * A book under a tariff, for trips one after another, of which `put` writes the record and answers its length. `settle`
 * gives the answer's number, `read` that for the charge record at an offset of what was written, and `fields` what it
 * read. `view` shows the book as it is now, until another call; `book` copies it. Under a monthly ceiling, `kept` is
 * the month and the amount to begin with; `due` is what the trip collects that was settled last, and `kept` copies what
 * is kept now.
 */
function openIn(room, places, functions, tariff, book, put, { ceiling = null, kept = new Uint8Array(0) } = {}) {
    let own = { book: deciding('book', book).slice(), kept: deciding('kept', kept).slice() };
    let lengths;
    const copied = (slice) => room.copied(slice, own[slice].length);
    const holder = {
        enter: () => {
            const [lentBook, lentKept] = ['book', 'kept'].map((slice) => room.lend(slice, own[slice]));
            lengths = { tariff: room.lend('tariff', tariff), book: lentBook, kept: lentKept };
        },
        leave: () => (own = { book: copied('book'), kept: copied('kept') }),
    };
    const settleLent = settlerOn(places, functions, ceiling);
    const fieldsLength = BigInt(LARGEST_FIELDS_BYTES);
    return {
        settle: (trip) => {
            room.hold(holder);
            return settleLent(lengths, BigInt(put(room.trip, trip)));
        },
        due: () => room.view.getUint32(places.due, true),
        kept: () => {
            room.hold(holder);
            return copied('kept');
        },
        read: (at, length) => {
            const records = BigInt(length - at);
            return functions.milecopper_read(places.statement + at, records, 0n, places.fields, fieldsLength);
        },
        fields: () => fieldsOf(room.view, places.fields),
        view: () => {
            room.hold(holder);
            return new DataView(room.view.buffer, places.book, own.book.length);
        },
        book: () => {
            room.hold(holder);
            return copied('book');
        },
    };
}

/**
 * Settles a trip of some length on what is lent, `lent` being the lengths of that; under a monthly ceiling, where there
 * is one. The words of a call are written out: as lists that are put together, they would be made anew for every trip.
 */
function settlerOn(places, { milecopper_settle, milecopper_settle_month }, ceiling) {
    const { kept, tariff, book, trip, statement, due } = places;
    const [room, dueRoom] = [LARGEST_STATEMENT_BYTES, DUE_BYTES].map(BigInt);
    if (ceiling === null) {
        return (lent, length) => milecopper_settle(tariff, lent.tariff, book, lent.book, trip, length, statement, room);
    }
    return (lent, length) =>
        milecopper_settle_month(
            ceiling, kept, lent.kept, tariff, lent.tariff, book, lent.book, trip, length, statement, room, due, dueRoom,
        );
}

// Where each slice is copied to, one behind the other: no two overlap.
function placesFrom(start, end) {
    const places = {};
    let free = start;
    for (const [slice, length] of Object.entries(DECIDING_BYTES)) {
        places[slice] = free;
        free += length;
    }
    if (free > end) throw new RangeError(`the slices need ${free} bytes of memory, and there are ${end}`);
    return places;
}

function deciding(slice, lent) {
    if (!(lent instanceof Uint8Array)) throw new TypeError(`${slice}: a Uint8Array is due`);
    return lent.subarray(0, DECIDING_BYTES[slice]);
}

function textAt(bytes, at) {
    return String.fromCharCode(...bytes.subarray(at, bytes.indexOf(0, at)));
}

// An answer's number is the bytes written or, from 2^32 on, a refusal's number and its place: it is below 2^53.
function answerOf(answer) {
    const number = Number(answer);
    if (number < 2 ** 32) return { accepted: true, bytes: number };
    const [refused, rest] = [Math.floor(number / 2 ** 32), number % 2 ** 32];
    const text = { de: refusalText(refused, 'de'), en: refusalText(refused, 'en') };
    return { accepted: false, refusal: { number: refused, place: rest, text } };
}

// The engine. Every function answers {accepted: true, ...} or {accepted: false, refusal}. The book that is lent stays
// as it is, and a new one is given back.
export async function loadEngine(wasmBytes) {
    const library = await loadLibrary(wasmBytes);
    const statement = new Uint8Array(LARGEST_STATEMENT_BYTES); // has room for every trip, so refusal 12 is never met

    const checkTariff = (tariff) => answerOf(library.call('milecopper_check_tariff', { tariff }).answer);

    const settle = (tariff, book, trip) => {
        const { answer, after } = library.call('milecopper_settle', { tariff, book, trip, statement });
        const told = answerOf(answer);
        if (!told.accepted) return told;
        return { accepted: true, statement: after('statement').slice(0, told.bytes), book: after('book') };
    };

    // The same under a monthly ceiling; besides, what the trip collects, in cents, and what is kept behind it.
    const settleMonth = (ceiling, kept, tariff, book, trip) => {
        const slices = { ceiling, kept, tariff, book, trip, statement, due: new Uint8Array(DUE_BYTES) };
        const { answer, after } = library.call('milecopper_settle_month', slices);
        const told = answerOf(answer);
        if (!told.accepted) return told;
        const due = new DataView(after('due').buffer).getUint32(0, true);
        const records = after('statement').slice(0, told.bytes);
        return { accepted: true, statement: records, book: after('book'), kept: after('kept'), due };
    };

    const quote = (tariff, book, trip) => {
        const { answer, after } = library.call('milecopper_quote', { tariff, book, trip, statement });
        const told = answerOf(answer);
        return told.accepted ? { accepted: true, statement: after('statement').slice(0, told.bytes) } : told;
    };

    const post = (tariff, book, trip, record) => {
        const { answer, after } = library.call('milecopper_post', { tariff, book, trip, record });
        const told = answerOf(answer);
        return told.accepted ? { accepted: true, book: after('book') } : told;
    };

    // The record at an offset of kept records; the next one begins `size` bytes further.
    const read = (records, at) => {
        if (!Number.isSafeInteger(at) || at < 0) throw new RangeError(`${at} is no offset`);
        const fields = new Uint8Array(LARGEST_FIELDS_BYTES);
        const { answer, after } = library.call('milecopper_read', { records: records.subarray(at), fields });
        const told = answerOf(answer);
        if (!told.accepted) return told;
        const { buffer, byteOffset } = after('fields');
        return { accepted: true, size: told.bytes, fields: fieldsOf(new DataView(buffer), byteOffset) };
    };

    // A book under a tariff, on which trips are settled one after another without a copy of either for each; `put`
    // writes the record of a trip into the library's memory and answers its length. A trip that is accepted gives the
    // fields of its charge records. The tariff that is lent must stay as it is meanwhile. Under a monthly ceiling,
    // {ceiling, kept}, it gives what it collects, `due`, too.
    const open = (tariff, book, put, month = undefined) => {
        const account = library.open(tariff, book, put, month);
        const recordsOf = (length) => {
            const records = [];
            for (let at = 0; at < length; ) {
                const told = answerOf(account.read(at, length));
                if (!told.accepted) throw new Error(`a charge record is refused with ${told.refusal.number}`);
                records.push(account.fields());
                at += told.bytes;
            }
            return records;
        };
        const settled = (trip) => {
            const told = answerOf(account.settle(trip));
            if (!told.accepted) return told;
            const records = recordsOf(told.bytes);
            return month ? { accepted: true, records, due: account.due() } : { accepted: true, records };
        };
        return { settle: settled, view: account.view, book: account.book, kept: account.kept };
    };

    return { version: library.version, checkTariff, settle, settleMonth, quote, post, read, open, refusalText };
}

// What milecopper_read writes at a place, in names: a head of 14 bytes, and ten for each charge.
function fieldsOf(view, start) {
    const charges = [];
    const end = start + 14 + 10 * view.getUint8(start + 1);
    for (let at = start + 14; at < end; at += 10) {
        const cents = view.getUint32(at, true);
        const off = view.getUint32(at + 4, true);
        charges.push({ cents, off, capArea: view.getUint8(at + 8), capClass: view.getUint8(at + 9) });
    }
    return {
        kind: view.getUint8(start),
        opening: view.getUint32(start + 10, true),
        area: view.getUint8(start + 5),
        km: view.getUint16(start + 6, true),
        minutes: view.getUint16(start + 8, true),
        adults: view.getUint8(start + 2),
        children: view.getUint8(start + 3),
        bicycles: view.getUint8(start + 4),
        charges,
    };
}
