// What was made once of a value, for when it comes again.

const MOST = 100000; // so that a file in which every value is another takes no more memory than these

/** A function of one value that keeps what it made. */
export function remembered(make) {
    const made = new Map();
    let last; // in rows one behind another much stays the same
    let lastMade;
    return (value) => {
        if (value === last) return lastMade;
        let known = made.get(value);
        if (known === undefined) {
            if (made.size >= MOST) made.clear();
            known = make(value);
            made.set(value, known);
        }
        last = value;
        lastMade = known;
        return known;
    };
}
