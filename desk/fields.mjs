// Fields of a row as values; what is none goes to the mistakes, and the answer is then null.

/** A whole number of a range. `empty` is an empty field's value; where none is given, a field must not be empty. */
export function wholeIn(row, column, least, most, note, empty) {
    const text = row[column];
    if (text === '') return empty === undefined ? note('blank', { column }) : empty;
    const number = /^\d{1,9}$/.test(text) ? Number(text) : NaN;
    return number >= least && number <= most ? number : note('notNumber', { column, value: text, least, most });
}

/** An amount in euros with a decimal point or comma, as cents; NaN for any other text. */
export function amountOf(text) {
    const found = /^(\d{1,7})(?:[.,](\d{1,2}))?$/.exec(text);
    return found ? Number(found[1]) * 100 + Number((found[2] ?? '').padEnd(2, '0')) : NaN;
}

/** Such an amount, from 0 to `most` cents. */
export function centsIn(row, column, most, note, empty) {
    const text = row[column];
    if (text === '') return empty === undefined ? note('blank', { column }) : empty;
    const cents = amountOf(text);
    return cents <= most ? cents : note('notAmount', { column, value: text, most: (most / 100).toFixed(2) });
}

/** One of some words, whatever their capitals. */
export function wordIn(row, column, allowed, note, empty) {
    const text = row[column].toLowerCase();
    if (text === '') return empty === undefined ? note('blank', { column }) : empty;
    return allowed.includes(text) ? text : note('notOneOf', { column, value: row[column], allowed });
}

/** Tells of a value that is empty, or that an earlier row has too; `seen` has the line of each so far. */
export function noteTaken(seen, column, value, line, note) {
    if (value === '') note('blank', { column });
    else if (seen.has(value)) note('taken', { column, value, line: seen.get(value) });
    else seen.set(value, line);
}

/** Cents as euros: '25.00', '-1.50'. */
export function euros(cents) {
    const due = Math.abs(cents);
    return `${cents < 0 ? '-' : ''}${Math.floor(due / 100)}.${String(due % 100).padStart(2, '0')}`;
}
