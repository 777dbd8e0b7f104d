// Names as people write them: when two are one, and which is near one that is not there.

/** One spelling for what looks alike: composed letters, single blanks. */
export function tidy(text) {
    return text.normalize('NFC').replace(/\s+/g, ' ').trim();
}

const SPELT = { ä: 'ae', ö: 'oe', ü: 'ue', ß: 'ss' };

/** A name without capitals, umlauts, accents, blanks and signs: 'Münster Hbf' and 'muenster-hbf' are one. */
export function folded(text) {
    return tidy(text)
        .toLowerCase()
        .replace(/[äöüß]/g, (letter) => SPELT[letter])
        .normalize('NFD')
        .replace(/[^\p{L}\p{N}]/gu, '');
}

/** How many letters have to be put, taken away or changed to make one word of the other. */
function distance(one, other) {
    let row = Array.from({ length: other.length + 1 }, (_, i) => i);
    for (let i = 1; i <= one.length; i += 1) {
        const next = [i];
        for (let j = 1; j <= other.length; j += 1) {
            const changed = row[j - 1] + (one[i - 1] === other[j - 1] ? 0 : 1);
            next.push(Math.min(changed, row[j] + 1, next[j - 1] + 1));
        }
        row = next;
    }
    return row[other.length];
}

/** How far a name may be from another to be offered for it: a letter, and of long names up to three. */
function reach(word) {
    return Math.max(1, Math.min(3, Math.floor(word.length / 4)));
}

/** The nearest of the names, the first of equals; one that only begins with the word is the last resort; or null. */
export function nearest(text, names) {
    const word = folded(text);
    const found = closest(text, names);
    if (found !== null || word.length < 3) return found;
    return names.find((name) => folded(name).startsWith(word)) ?? null;
}

/** That of the names from which the fewest letters differ, and few enough, the first of equals; or null. */
export function closest(text, names) {
    const word = folded(text);
    let found = null;
    let least = reach(word) + 1;
    for (const name of names) {
        const other = folded(name);
        if (Math.abs(other.length - word.length) >= least) continue;
        const far = distance(word, other);
        if (far < least) [found, least] = [name, far];
    }
    return found;
}

// ---- Persons

const MOST_PERSONS = 5000; // a file with more names is none of a crew's, and to keep all of them takes memory

/**
 * Names of which two may be one person: equal but for capitals, umlauts and signs; one letter more, less, other or
 * moved; swapped; or with an initial. Figures tell persons apart. `near` gives the first that was added and is near.
 */
export function personFinder() {
    const known = new Map();
    let last = null; // one who is looked for is often added then
    const keysOf = (name) => (last?.name === name ? last : (last = { name, ...personKeys(name) }));
    let added = 0;
    return {
        add: (name) => {
            added += 1;
            if (added > MOST_PERSONS) return;
            for (const key of keysOf(name).own) if (!known.has(key)) known.set(key, name);
        },
        near: (name) => {
            const key = known.size === 0 ? undefined : keysOf(name).looked.find((one) => known.has(one));
            return key === undefined ? null : known.get(key);
        },
    };
}

/** Keys that a name is found by, and those by which it finds others; they begin with what sort they are of. */
function personKeys(name) {
    const whole = folded(name);
    const parts = tidy(name).split(/[\s,.]+/).map(folded).filter((part) => part !== '');
    const sort = (word, keys) => keys.map((key) => `${word} ${key}`);
    const alike = sort('letters', [whole, ...(parts.some((part) => part.length === 1) ? [] : lettersLess(whole))]);
    const swapped = sort('parts', [[...parts].sort().join(' ')]);
    const short = parts.length > 1 ? [0, parts.length - 1].flatMap((at) => shortened(parts, at)) : [];
    const initial = short.filter((one) => one === parts.join(' ')); // it is an initial itself
    return {
        own: [...alike, ...swapped, ...sort('short', short), ...sort('initial', initial)],
        looked: [...alike, ...swapped, ...sort('short', initial), ...sort('initial', short)],
    };
}

/** A word without one of its letters, in all ways; two words that share one of these differ by a letter. */
function lettersLess(word) {
    if (word.length < 4) return [];
    const letters = [...word];
    return letters.flatMap((letter, i) => (/\d/.test(letter) ? [] : [letters.toSpliced(i, 1).join('')]));
}

/** A name's parts with one of them as an initial, if it begins with a letter. */
function shortened(parts, at) {
    return /^\p{L}/u.test(parts[at]) ? [parts.map((part, i) => (i === at ? part[0] : part)).join(' ')] : [];
}

/** Members' names as parts of file names, all different. */
export function fileSafe(names) {
    const taken = new Set();
    return names.map((name) => {
        const plain = name.replace(/[/\\:*?"<>|\p{Cc}]/gu, '_').replace(/^\.+/, '_').slice(0, 80);
        let own = plain;
        for (let n = 2; taken.has(own.toLowerCase()); n += 1) own = `${plain}-${n}`;
        taken.add(own.toLowerCase());
        return own;
    });
}
