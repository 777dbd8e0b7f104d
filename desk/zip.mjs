// A zip of files that are stored as they are, for what is saved together: no packing, so nothing else is needed.

const CRC = Uint32Array.from({ length: 256 }, (_, byte) => {
    let sum = byte;
    for (let bit = 0; bit < 8; bit += 1) sum = sum & 1 ? (sum >>> 1) ^ 0xedb88320 : sum >>> 1;
    return sum;
});

/** The sum that a zip keeps of a file's bytes. */
export function crc32(bytes) {
    let sum = 0xffffffff;
    for (const byte of bytes) sum = CRC[(sum ^ byte) & 255] ^ (sum >>> 8);
    return (sum ^ 0xffffffff) >>> 0;
}

/** Numbers as bytes, the lowest first: [length in bytes, number] each. */
function littleEndian(fields) {
    return Uint8Array.from(fields.flatMap(([length, number]) => {
        return Array.from({ length }, (_, i) => Math.floor(number / 256 ** i) % 256);
    }));
}

const [VERSION, UTF8_NAMES, STORED] = [20, 0x800, 0];

/** The bytes of a zip of [name, text] on a day, '2026-11-03'. */
export function zipOf(files, date) {
    const [year, month, day] = date.split('-').map(Number);
    const stamp = [[2, 0], [2, ((year - 1980) << 9) | (month << 5) | day]];
    const [parts, directory] = [[], []];
    let at = 0;
    for (const [name, text] of files) {
        const [nameBytes, bytes] = [name, text].map((part) => new TextEncoder().encode(part));
        const sizes = [[4, crc32(bytes)], [4, bytes.length], [4, bytes.length], [2, nameBytes.length], [2, 0]];
        const common = [[2, VERSION], [2, UTF8_NAMES], [2, STORED], ...stamp, ...sizes];
        const own = [littleEndian([[4, 0x04034b50], ...common]), nameBytes, bytes];
        const place = [...[2, 2, 2, 4].map((length) => [length, 0]), [4, at]];
        parts.push(...own);
        directory.push(littleEndian([[4, 0x02014b50], [2, VERSION], ...common, ...place]), nameBytes);
        at += lengthOf(own);
    }
    const count = [2, files.length];
    const end = [[4, 0x06054b50], [2, 0], [2, 0], count, count, [4, lengthOf(directory)], [4, at], [2, 0]];
    return joined([...parts, ...directory, littleEndian(end)]);
}

const lengthOf = (parts) => parts.reduce((sum, { length }) => sum + length, 0);

function joined(parts) {
    const all = new Uint8Array(lengthOf(parts));
    let at = 0;
    for (const part of parts) {
        all.set(part, at);
        at += part.length;
    }
    return all;
}
