// CSV as spreadsheets write it: a header, columns by name in any order, `;`, `,` or tabs, quoted fields, any line end.
import { columnsBy, namesOf } from './columns.mjs';
import { textIn } from './encoding.mjs';
import { euros } from './fields.mjs';
import { closest, folded } from './names.mjs';

// ---- Rows

/** The next place of a sign from a place on, or the text's end. Places are asked for in order, each sign found once. */
function finder(text, sign) {
    let place = -1;
    return (at) => {
        if (place < at) place = text.indexOf(sign, at);
        return place < 0 ? (place = text.length) : place;
    };
}

/**
 * Gives the cells of each row that is not blank to `take(cells, line, separator)`, with the line that it begins in.
 * Answers the line in which a quote begins that is not closed, or that text follows: there it ends; null where all
 * are closed.
 */
export function eachRow(text, take) {
    const { separator, start } = formOf(text);
    const [feed, back, quote] = ['\n', '\r', '"'].map((sign) => finder(text, sign));
    let line = 1 + linesIn(text, 0, start);
    for (let at = start; at < text.length; ) {
        const end = Math.min(feed(at), back(at));
        const plain = quote(at) >= end;
        const row = plain ? plainRow(text, at, end, separator) : quotedRow(text, at, separator);
        if (row.broken !== undefined) return line + linesIn(text, at, row.broken);
        if (row.cells.some((cell) => cell !== '')) take(row.cells, line, separator);
        line += plain ? 1 : 1 + linesIn(text, at, row.end);
        at = row.end + (text.startsWith('\r\n', row.end) ? 2 : 1);
    }
    return null;
}

/** The cells of a text's first row. */
export function headerOf(text) {
    let header = null;
    eachRow(text, (cells) => {
        header ??= cells;
    });
    return header ?? [];
}

function plainRow(text, start, end, separator) {
    const cells = text.slice(start, end).split(separator);
    for (let i = 0; i < cells.length; i += 1) cells[i] = cells[i].trim();
    return { cells, end };
}

const linesIn = (text, from, to) => (text.slice(from, to).match(/\r\n|\n|\r/g) ?? []).length;

/** The separator, and where the rows begin: behind a line `sep=;`, by which a spreadsheet is told, if there is one. */
function formOf(text) {
    const told = /^"?sep=([;,\t])"?[^\S\r\n]*(?:\r\n|\n|\r|$)/i.exec(text);
    if (told) return { separator: told[1], start: told[0].length };
    const header = /\S.*/.exec(text)?.[0] ?? '';
    const parts = (sign) => header.split(sign).length;
    const separator = [';', '\t', ','].reduce((best, sign) => (parts(sign) > parts(best) ? sign : best));
    return { separator, start: 0 };
}

// Blanks in front of a field and behind its quotes, and the end of a field without quotes.
const BLANKS = { ';': /[^\S\r\n]*/y, ',': /[^\S\r\n]*/y, '\t': /[^\S\r\n\t]*/y };
const ENDS = { ';': /[;\r\n]|$/g, ',': /[,\r\n]|$/g, '\t': /[\t\r\n]|$/g };

/** Where a pattern ends that is looked for from a place on, and where it begins. */
function found(pattern, text, at) {
    pattern.lastIndex = at;
    const { index, 0: match } = pattern.exec(text);
    return { from: index, to: index + match.length };
}

/** A row with quoted fields, which may hold separators, doubled quotes and line ends; or where a quote is broken. */
function quotedRow(text, start, separator) {
    const cells = [];
    for (let at = start; ; at += 1) {
        const field = fieldAt(text, at, separator);
        if (field.broken !== undefined) return field;
        cells.push(field.cell);
        at = field.end;
        if (text[at] !== separator) return { cells, end: at };
    }
}

/** The field at a place: what it says, and the place of the separator or line end behind it. */
function fieldAt(text, at, separator) {
    const start = found(BLANKS[separator], text, at).to;
    if (text[start] !== '"') {
        const end = found(ENDS[separator], text, at).from;
        return { cell: text.slice(at, end).trim(), end };
    }
    const close = closingQuote(text, start + 1);
    const end = close < 0 ? -1 : found(BLANKS[separator], text, close + 1).to;
    if (end < 0 || (end < text.length && ![separator, '\r', '\n'].includes(text[end]))) return { broken: start };
    return { cell: text.slice(start + 1, close).replaceAll('""', '"').replace(/\r\n?/g, '\n').trim(), end };
}

/** The place of the quote that ends a field, behind doubled ones; -1 where there is none. */
function closingQuote(text, from) {
    let at = text.indexOf('"', from);
    while (at >= 0 && text[at + 1] === '"') at = text.indexOf('"', at + 2);
    return at;
}

// ---- Tables

/** A column that has to be there, but may be empty in a row. */
export const IN_HEADER = 'header';

/**
 * What `take(row, line)` makes of a file's rows, objects by column with their line, unless a column has that name; a
 * row that it makes null of is left out. What is amiss goes to the mistakes. `columns` has for each name whether it is
 * due: true, false or IN_HEADER; one that is not, and not there, is empty in every row. Null where no row can be read.
 */
export function readTable(file, columns, mistakes, take = (row) => row) {
    if (file.bytes === null) return mistakes.error(file.name, 1, 'missing');
    const text = textIn(file, mistakes);
    if (text === null) return null;
    const rows = [];
    let table;
    const broken = eachRow(text, (cells, line, separator) => {
        if (table === undefined) return (table = tableOf(file.name, cells, line, columns, mistakes));
        const row = table && filledRow(table, cells, line, separator, mistakes);
        const taken = row && take(row, line);
        if (taken) rows.push(taken);
    });
    if (broken !== null) mistakes.error(file.name, broken, 'quote');
    if (table === undefined && broken === null) mistakes.error(file.name, 1, 'empty');
    return table ? rows : null;
}

/**
 * What a header says: the form of the rows (`formOfRows`); how many cells it has; and how many a row needs so that
 * those columns that are due are in it. Null where one that is due is missing.
 */
function tableOf(name, cells, line, columns, mistakes) {
    const places = new Map(Object.keys(columns).map((column) => [column, -1]));
    const known = columnsBy(columns);
    const unknown = [];
    cells.forEach((cell, at) => {
        const column = known.get(folded(cell));
        if (column === undefined) unknown.push(cell);
        else if (places.get(column) >= 0) mistakes.error(name, line, 'columnTwice', { column });
        else places.set(column, at);
    });
    const absent = [...places.keys()].filter((column) => places.get(column) < 0);
    const meant = unknown.map((cell) => noteUnknown(name, line, cell, absent, mistakes));
    const due = Object.keys(columns).filter((column) => columns[column]);
    const missing = due.filter((column) => places.get(column) < 0);
    for (const column of missing) {
        if (!meant.includes(column)) mistakes.error(name, line, 'columnMissing', { column });
    }
    const filled = due.filter((column) => columns[column] !== IN_HEADER);
    const least = 1 + Math.max(...filled.map((column) => places.get(column)));
    return missing.length === 0 ? { name, ...formOfRows(places), width: cells.length, least } : null;
}

/** A row without its values, the columns that the header has, and the place of each of these. */
function formOfRows(places) {
    const blank = { line: 0, ...Object.fromEntries([...places.keys()].map((column) => [column, ''])) };
    const present = [...places].filter(([, at]) => at >= 0);
    return { blank, columns: present.map(([column]) => column), places: present.map(([, at]) => at) };
}

/** Tells of a header's cell that names no column; answers the absent one that it likely means, or null. */
function noteUnknown(name, line, cell, absent, mistakes) {
    const near = closest(cell, absent.flatMap(namesOf));
    if (near !== null) mistakes.error(name, line, 'columnNear', { column: cell, near });
    else if (cell !== '') mistakes.warning(name, line, 'columnUnknown', { column: cell });
    return near && absent.find((column) => namesOf(column).includes(near));
}

/**
 * A row by column. Spreadsheets leave empty cells out at a row's end, or put more there; but one comma more is likely
 * within a name.
 */
function filledRow({ name, blank, columns, places, width, least }, cells, line, separator, mistakes) {
    const further = cells.length > width && (separator === ',' || cells.slice(width).some((cell) => cell !== ''));
    if (further || cells.length < least) {
        return mistakes.error(name, line, 'fieldCount', { found: cells.length, due: width });
    }
    const filled = { ...blank }; // with all columns at once: where they are put one by one, a row grows again and again
    if (blank.line !== '') filled.line = line; // else a column has that name
    for (let i = 0; i < columns.length; i += 1) {
        const cell = cells[places[i]];
        if (cell) filled[columns[i]] = cell;
    }
    return filled;
}

// ---- Writing

const FORMS = {
    // without its mark a German spreadsheet takes umlauts for something else
    de: { mark: '\uFEFF', separator: ';', special: /[;"\n\r]/, amount: (cents) => euros(cents).replace('.', ',') },
    en: { mark: '', separator: ',', special: /[,"\n\r]/, amount: euros },
};

/**
 * Rows as CSV, the way the language's spreadsheets read it. A cell is a text, a number, an amount as {cents}, or null:
 * then it is empty.
 */
export function writtenCsv(rows, language) {
    const { mark, separator, special, amount } = FORMS[language];
    const cell = (value) => {
        if (typeof value === 'string') return textCell(value, special);
        return typeof value === 'number' ? String(value) : value === null ? '' : amount(value.cents);
    };
    let text = mark;
    for (const row of rows) text += `${row.map(cell).join(separator)}\n`;
    return text;
}

/** A text as a cell. One that a spreadsheet would run as a formula has an apostrophe before it. */
function textCell(text, special) {
    const harmless = /^[=+\-@\t\r]/.test(text) ? `'${text}` : text;
    return special.test(harmless) ? `"${harmless.replaceAll('"', '""')}"` : harmless;
}
