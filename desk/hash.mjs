// SHA-256, by which a tariff is told from another. Written out, since the browser's own is not there for every page
// from disk and answers later, while the desk's work is done in one go.

const K = new Uint32Array(64);
const START = new Uint32Array(8);

// The first 32 bits of the fractional parts of the primes' cube roots and square roots.
function fill() {
    const bits = (number) => Math.floor((number - Math.floor(number)) * 2 ** 32);
    for (let prime = 2, found = 0; found < 64; prime += 1) {
        let divisor = 2;
        while (divisor * divisor <= prime && prime % divisor !== 0) divisor += 1;
        if (divisor * divisor <= prime) continue;
        if (found < 8) START[found] = bits(Math.sqrt(prime));
        K[found] = bits(Math.cbrt(prime));
        found += 1;
    }
}
fill();

const turned = (word, by) => (word >>> by) | (word << (32 - by));

/** The bytes, the bit 1, zeros, and the length in bits: a multiple of 64 bytes. */
function padded(bytes) {
    const all = new Uint8Array(Math.ceil((bytes.length + 9) / 64) * 64);
    all.set(bytes);
    all[bytes.length] = 0x80;
    const view = new DataView(all.buffer);
    view.setUint32(all.length - 8, Math.floor(bytes.length / 2 ** 29));
    view.setUint32(all.length - 4, (bytes.length * 8) >>> 0);
    return view;
}

function schedule(view, at) {
    const w = new Uint32Array(64);
    for (let i = 0; i < 16; i += 1) w[i] = view.getUint32(at + 4 * i);
    for (let i = 16; i < 64; i += 1) {
        const low = turned(w[i - 15], 7) ^ turned(w[i - 15], 18) ^ (w[i - 15] >>> 3);
        const high = turned(w[i - 2], 17) ^ turned(w[i - 2], 19) ^ (w[i - 2] >>> 10);
        w[i] = w[i - 16] + low + w[i - 7] + high;
    }
    return w;
}

function mix(state, w) {
    let [a, b, c, d, e, f, g, h] = state;
    for (let i = 0; i < 64; i += 1) {
        const first = turned(e, 6) ^ turned(e, 11) ^ turned(e, 25);
        const one = (h + first + ((e & f) ^ (~e & g)) + K[i] + w[i]) | 0;
        const second = turned(a, 2) ^ turned(a, 13) ^ turned(a, 22);
        const two = (second + ((a & b) ^ (a & c) ^ (b & c))) | 0;
        [h, g, f, e, d, c, b, a] = [g, f, e, (d + one) | 0, c, b, a, (one + two) | 0];
    }
    [a, b, c, d, e, f, g, h].forEach((word, i) => {
        state[i] += word;
    });
}

/** The hash of bytes, in 64 hexadecimal digits. */
export function sha256(bytes) {
    const view = padded(bytes);
    const state = Uint32Array.from(START);
    for (let at = 0; at < view.byteLength; at += 64) mix(state, schedule(view, at));
    return [...state].map((word) => word.toString(16).padStart(8, '0')).join('');
}
