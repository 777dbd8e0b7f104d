// A workbook, .xlsx: its first sheet as CSV, so that it is read like any other file. Each row of the sheet is a line,
// so mistakes name its number. Dates and times, which are numbers there, are known by the form in which they are shown.
import { two } from './clock.mjs';
import { isWorkbook } from './encoding.mjs';
import { unzipper } from './unzip.mjs';
import { attributeIn, readXml } from './xml.mjs';

/** Files as the desk reads them: of a workbook the first sheet as CSV. What cannot be read so stays, and is told. */
export async function prepared(files) {
    const sorts = Object.entries(files).map(async ([sort, given]) => {
        return [sort, Array.isArray(given) ? await Promise.all(given.map(preparedFile)) : await preparedFile(given)];
    });
    return Object.fromEntries(await Promise.all(sorts));
}

export async function preparedFile(file) {
    if (!file?.bytes || !isWorkbook(file.bytes)) return file;
    try {
        return { ...file, bytes: await sheetCsv(file.bytes) };
    } catch {
        return file;
    }
}

async function sheetCsv(bytes) {
    const file = unzipper(bytes);
    const text = async (name) => {
        const found = await file(name);
        return found === null ? '' : new TextDecoder().decode(found);
    };
    const book = bookIn(await text('xl/workbook.xml'));
    const sheet = await file(sheetName(await text('xl/_rels/workbook.xml.rels'), book.first));
    const strings = stringsIn(await text('xl/sharedStrings.xml'));
    const shown = formsIn(await text('xl/styles.xml'));
    const rows = rowsIn(new TextDecoder().decode(sheet), (cell) => cellText(cell, strings, shown, book.since));
    return new TextEncoder().encode(csvOf(rows));
}

const IGNORED = { open: () => {}, close: () => {}, text: () => {} };

// ---- The parts around the sheet

const [SINCE_1900, SINCE_1904] = [Date.UTC(1899, 11, 30), Date.UTC(1904, 0, 1)];

/** The first sheet's id among the workbook's parts, and the day from which its days are counted. */
function bookIn(xml) {
    const book = { first: null, since: SINCE_1900 };
    readXml(xml, {
        ...IGNORED,
        open: (name, attributes) => {
            if (name === 'sheet') book.first ??= attributeIn(attributes, 'id');
            const late = name === 'workbookPr' ? attributeIn(attributes, 'date1904') : null;
            if (late === '1' || late === 'true') book.since = SINCE_1904;
        },
    });
    return book;
}

/** The name in the zip of the part with an id. */
function sheetName(xml, id) {
    let target = null;
    readXml(xml, {
        ...IGNORED,
        open: (name, attributes) => {
            const own = name === 'Relationship' && attributeIn(attributes, 'Id') === id;
            if (own) target = attributeIn(attributes, 'Target');
        },
    });
    if (target === null) throw new Error('no sheet');
    return target.startsWith('/') ? target.slice(1) : `xl/${target}`;
}

/** The texts that cells name by number. A text may come in runs; how it is to be pronounced is no part of it. */
function stringsIn(xml) {
    const strings = [];
    let aside = 0;
    let inText = false;
    readXml(xml, {
        open: (name) => {
            if (name === 'si') strings.push('');
            if (name === 'rPh') aside += 1;
            inText = name === 't' && aside === 0;
        },
        close: (name) => {
            if (name === 'rPh') aside -= 1;
            inText = false;
        },
        text: (text) => {
            if (inText) strings[strings.length - 1] += text;
        },
    });
    return strings;
}

// ---- Dates and times

const DATE_FORMS = [14, 15, 16, 17];
const TIME_FORMS = [18, 19, 20, 21, 45, 47];

/** How a number is shown that has one of the forms that every workbook knows. */
function knownForm(number) {
    const date = DATE_FORMS.includes(number) || number === 22;
    const time = TIME_FORMS.includes(number) || number === 22 || number === 46;
    return { date, time, elapsed: number === 46 };
}

/** How a number is shown by a form like `dd.mm.yyyy` or `[h]:mm`; what stands in quotes or brackets is none of it. */
function writtenForm(code) {
    const elapsed = /\[h+\]/i.test(code);
    const letters = code.split(';')[0].replace(/"[^"]*"|\\.|_.|\*.|\[[^\]]*\]|am\/pm|a\/p|general/gi, '').toLowerCase();
    const time = elapsed || /[hs]/.test(letters);
    return { date: /[yd]/.test(letters) || (!time && letters.includes('m')), time, elapsed };
}

/** For each style of a cell how a number is shown. */
function formsIn(xml) {
    const codes = new Map();
    const styles = [];
    let inCells = false;
    readXml(xml, {
        ...IGNORED,
        open: (name, attributes) => {
            const number = Number(attributeIn(attributes, 'numFmtId'));
            if (name === 'numFmt') codes.set(number, attributeIn(attributes, 'formatCode') ?? '');
            if (name === 'cellXfs') inCells = true;
            if (name === 'xf' && inCells) styles.push(number);
        },
        close: (name) => {
            if (name === 'cellXfs') inCells = false;
        },
    });
    return styles.map((number) => (codes.has(number) ? writtenForm(codes.get(number)) : knownForm(number)));
}

const DAY = 86400; // seconds

/** Days, and parts of one, as '2026-10-31', '23:50' or both, as they are shown. */
function momentText(days, { date, time, elapsed }, since) {
    const seconds = Math.round(days * DAY);
    const day = Math.floor(seconds / DAY);
    const rest = elapsed ? seconds : seconds - day * DAY;
    const [hours, minutes, second] = [Math.floor(rest / 3600), Math.floor(rest / 60) % 60, rest % 60];
    const clock = `${two(hours)}:${two(minutes)}${second === 0 ? '' : `:${two(second)}`}`;
    if (!date) return clock;
    const written = new Date(since + day * DAY * 1000).toISOString().slice(0, 10);
    return time && rest !== 0 ? `${written} ${clock}` : written;
}

// ---- The sheet

/** The text of a cell as people see it: of its sort, its style and what stands in it. */
function cellText({ sort, style, value }, strings, shown, since) {
    if (sort === 's') return plainText(strings[Number(value)] ?? '');
    if (sort === 'b') return value === '1' ? 'yes' : 'no';
    if (sort !== null && sort !== 'n') return plainText(value);
    const [number, form] = [Number(value), shown[style]];
    if (value === '' || !Number.isFinite(number)) return value;
    const isMoment = form && (form.date || form.time) && number >= 0 && number < 100000;
    return isMoment ? momentText(number, form, since) : String(Number(number.toPrecision(12)));
}

/** A text in one line; signs that XML cannot have are written there as `_x000D_`. */
function plainText(text) {
    const whole = text.replace(/_x([0-9a-f]{4})_/gi, (_, sign) => String.fromCharCode(Number.parseInt(sign, 16)));
    return whole.replace(/\s+/g, ' ');
}

/** The rows of a sheet by number, each with its cells' texts by column. */
function rowsIn(xml, textOf) {
    const rows = [];
    let [row, cell, heard] = [[], null, false];
    readXml(xml, {
        open: (name, attributes) => {
            if (name === 'row') row = rows[numberOf(attributeIn(attributes, 'r'), rows.length)] = [];
            if (name === 'c') cell = cellAt(attributes, row.length);
            heard = cell !== null && (name === 'v' || name === 't');
        },
        close: (name) => {
            heard = false;
            if (name !== 'c' || cell === null) return;
            const text = textOf(cell);
            if (text !== '') row[cell.column] = text;
            cell = null;
        },
        text: (text) => {
            if (heard) cell.value += text;
        },
    });
    return rows;
}

/** A row's place from its number; where it has none, the next one. */
const numberOf = (text, next) => (text === null ? next : Number(text) - 1);

function cellAt(attributes, next) {
    const letters = /^[A-Z]+/.exec(attributeIn(attributes, 'r') ?? '')?.[0];
    const column = letters ? [...letters].reduce((sum, letter) => 26 * sum + letter.charCodeAt(0) - 64, 0) - 1 : next;
    return { column, sort: attributeIn(attributes, 't'), style: Number(attributeIn(attributes, 's') ?? 0), value: '' };
}

function csvOf(rows) {
    const quoted = (text) => (/[;"]/.test(text) ? `"${text.replaceAll('"', '""')}"` : text);
    return Array.from(rows, (row) => `${Array.from(row ?? [], (text) => quoted(text ?? '')).join(';')}\n`).join('');
}
