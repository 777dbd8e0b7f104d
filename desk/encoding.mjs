// The text of a file's bytes, as spreadsheets and editors save it: UTF-8, with a byte order mark or without; UTF-16
// with one; and Windows-1252, which is told.

const decodedAs = (encoding, bytes) => new TextDecoder(encoding, { fatal: true }).decode(bytes);

/**
 * What bytes say: `text`, or null where nothing can be read; and `amiss`, what is to be told of them, as the key of a
 * mistake and the line that it is in, or null.
 */
export function decoded(bytes) {
    try {
        return checked(decodedAs(markedEncoding(bytes), bytes));
    } catch {
        return ansi(bytes);
    }
}

/** The encoding that a byte order mark says; UTF-8 where there is none. */
function markedEncoding([first, second]) {
    if (first === 0xff && second === 0xfe) return 'utf-16le';
    return first === 0xfe && second === 0xff ? 'utf-16be' : 'utf-8';
}

/** A text has no zeros; UTF-16 without its mark has one in every other place. */
function checked(text) {
    const nul = text.indexOf('\0');
    if (nul < 0) return { text, amiss: null };
    return { text: null, amiss: { key: 'nul', line: text.slice(0, nul).split('\n').length } };
}

/** Windows-1252 is what is not UTF-8, not even in parts, and has no byte that stands for nothing there. */
function ansi(bytes) {
    const read = checked(ansiText(bytes));
    if (read.text === null) return read;
    const line = firstForeignLine(bytes);
    const other = hasUtf8(bytes) || bytes.some((byte) => UNASSIGNED.has(byte));
    return other ? { text: null, amiss: { key: 'encoding', line } } : { ...read, amiss: { key: 'ansi', line } };
}

// Node's own decoder takes these signs for those of ISO 8859-1.
const SIGNS = '€\x81‚ƒ„…†‡ˆ‰Š‹Œ\x8dŽ\x8f\x90‘’“”•–—˜™š›œ\x9džŸ';

function ansiText(bytes) {
    return decodedAs('windows-1252', bytes).replace(/[\x80-\x9f]/g, (sign) => SIGNS[sign.charCodeAt(0) - 0x80]);
}

const UNASSIGNED = new Set([0x81, 0x8d, 0x8f, 0x90, 0x9d]);

/** Whether a letter of two bytes is among them, as 'ü' is in UTF-8: in Windows-1252 it would be two rare signs. */
function hasUtf8(bytes) {
    return bytes.some((byte, at) => byte >= 0xc3 && byte <= 0xdf && bytes[at + 1] >= 0x80 && bytes[at + 1] <= 0xbf);
}

// No character of UTF-8 has a line's end within it, so each line can be tried alone.
function firstForeignLine(bytes) {
    let line = 1;
    for (let from = 0; from <= bytes.length; line += 1) {
        const end = bytes.indexOf(10, from);
        const to = end < 0 ? bytes.length : end;
        try {
            decodedAs('utf-8', bytes.subarray(from, to));
        } catch {
            return line;
        }
        from = to + 1;
    }
    return 1;
}

// The first bytes of workbooks: of .xlsx and .ods, which are zips, and of .xls.
const WORKBOOKS = [[0x50, 0x4b, 3, 4], [0xd0, 0xcf, 0x11, 0xe0]];

/** Whether bytes are a workbook's and no text. */
export function isWorkbook(bytes) {
    return WORKBOOKS.some((first) => first.every((byte, at) => bytes[at] === byte));
}

/** The text of a file that holds one; null, and a mistake, where it does not. */
export function textIn({ name, bytes }, mistakes) {
    if (isWorkbook(bytes)) return mistakes.error(name, 1, 'workbook');
    const { text, amiss } = decoded(bytes);
    if (text === null) return mistakes.error(name, amiss.line, amiss.key);
    if (amiss !== null) mistakes.warning(name, amiss.line, amiss.key);
    return text;
}

/** The text of bytes, whatever they are: for showing, not for reading. A workbook has none. */
export function shownText(bytes) {
    return isWorkbook(bytes) ? '' : decoded(bytes).text ?? new TextDecoder('utf-8').decode(bytes);
}
