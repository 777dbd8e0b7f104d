// The files in a zip, as workbooks are: stored as they are, or packed, which the platform's own inflater unpacks.

const [END, ENTRY, FILE] = [0x06054b50, 0x02014b50, 0x04034b50]; // what stands before each sort of record
const [STORED, PACKED] = [0, 8];
const MOST_BYTES = 400e6; // unpacked, of one file

/** Finds files by name: `file(name)` gives the bytes of one, or null where there is none of that name. */
export function unzipper(bytes) {
    const view = new DataView(bytes.buffer, bytes.byteOffset, bytes.length);
    const entries = entriesIn(view, bytes);
    return async (name) => {
        const entry = entries.get(name);
        return entry === undefined ? null : unpacked(entry, packedBytes(view, bytes, entry));
    };
}

/** The directory at the zip's end: name → where the file begins, how it is packed, and how long it is packed. */
function entriesIn(view, bytes) {
    const end = endRecord(view);
    const entries = new Map();
    let at = view.getUint32(end + 16, true);
    for (let left = view.getUint16(end + 10, true); left > 0; left -= 1) {
        if (view.getUint32(at, true) !== ENTRY) throw new Error('the directory of the zip is broken');
        const [nameLength, extra, comment] = [28, 30, 32].map((by) => view.getUint16(at + by, true));
        const name = new TextDecoder().decode(bytes.subarray(at + 46, at + 46 + nameLength));
        const [packed, start] = [20, 42].map((by) => view.getUint32(at + by, true));
        entries.set(name, { method: view.getUint16(at + 10, true), packed, start });
        at += 46 + nameLength + extra + comment;
    }
    return entries;
}

/** The place of the record that ends a zip; a remark of any length may stand behind it. */
function endRecord(view) {
    for (let at = view.byteLength - 22; at >= 0; at -= 1) if (view.getUint32(at, true) === END) return at;
    throw new Error('no zip');
}

function packedBytes(view, bytes, { start, packed }) {
    if (view.getUint32(start, true) !== FILE) throw new Error('a file of the zip is broken');
    const from = start + 30 + view.getUint16(start + 26, true) + view.getUint16(start + 28, true);
    return bytes.subarray(from, from + packed);
}

function unpacked({ method }, bytes) {
    if (method === STORED) return bytes;
    if (method !== PACKED) throw new Error(`packed by method ${method}`);
    return inflated(bytes);
}

async function inflated(bytes) {
    const reader = new Blob([bytes]).stream().pipeThrough(new DecompressionStream('deflate-raw')).getReader();
    const parts = [];
    let length = 0;
    for (let part = await reader.read(); !part.done; part = await reader.read()) {
        length += part.value.length;
        if (length > MOST_BYTES) throw new Error('too large');
        parts.push(part.value);
    }
    return new Uint8Array(await new Blob(parts).arrayBuffer());
}
