// Workbooks for the tests, made as spreadsheets make them.
import zlib from 'node:zlib';

const HEAD = '<?xml version="1.0" encoding="UTF-8" standalone="yes"?>\r\n';
const REL = 'http://schemas.openxmlformats.org/officeDocument/2006/relationships';

/** The parts of a workbook with this sheet as its first one, behind others in the zip. */
export function parts(sheet, { strings = '', styles = '', book = '', target = 'worksheets/sheet2.xml' } = {}) {
    const sheets = '<sheet name="Fahrten" sheetId="7" r:id="rId3"/><sheet name="x" sheetId="1" r:id="rId1"/>';
    const sheetOf = (rows) => `${HEAD}<worksheet xmlns="x"><sheetData>${rows}</sheetData></worksheet>`;
    const relations = [['rId1', 'worksheets/sheet1.xml'], ['rId3', target]];
    const relation = ([id, to]) => `<Relationship Id="${id}" Type="${REL}/worksheet" Target="${to}"/>`;
    return Object.entries({
        '[Content_Types].xml': `${HEAD}<Types/>`,
        'xl/worksheets/sheet1.xml': sheetOf('<row r="1"><c r="A1"><v>9</v></c></row>'),
        'xl/worksheets/sheet2.xml': sheetOf(sheet),
        'xl/workbook.xml': `${HEAD}<workbook xmlns:r="${REL}">${book}<sheets>${sheets}</sheets></workbook>`,
        'xl/_rels/workbook.xml.rels': `${HEAD}<Relationships>${relations.map(relation).join('')}</Relationships>`,
        'xl/sharedStrings.xml': `${HEAD}<sst>${strings}</sst>`,
        'xl/styles.xml': `${HEAD}<styleSheet>${styles}</styleSheet>`,
    });
}

/** The same zip with its files packed, as spreadsheets write them; sums and sizes are not looked at. */
export function packed(files) {
    const number = (length, value) => Buffer.from(Array.from({ length }, (_, i) => (value >>> (8 * i)) & 255));
    const zeros = (length) => Buffer.alloc(length);
    let [at, local, directory] = [0, [], []];
    for (const [name, text] of files) {
        const data = zlib.deflateRawSync(Buffer.from(text));
        const sizes = [number(4, data.length), zeros(4), number(2, name.length)];
        const common = [number(2, 20), number(2, 8), number(2, 8), zeros(8), ...sizes];
        const own = Buffer.concat([number(4, 0x04034b50), ...common, zeros(2), Buffer.from(name), data]);
        const place = [zeros(12), number(4, at), Buffer.from(name)];
        directory.push(Buffer.concat([number(4, 0x02014b50), number(2, 20), ...common, ...place]));
        local.push(own);
        at += own.length;
    }
    const index = Buffer.concat(directory);
    const end = [number(4, 0x06054b50), zeros(4), number(2, files.length), number(2, files.length)];
    return new Uint8Array(Buffer.concat([...local, index, ...end, number(4, index.length), number(4, at), zeros(2)]));
}

const column = (i) => (i < 26 ? '' : column(Math.floor(i / 26) - 1)) + String.fromCharCode(65 + (i % 26));
const escaped = (text) => text.replaceAll('&', '&amp;').replaceAll('<', '&lt;');

/** A CSV as a spreadsheet keeps it: texts shared, numbers as numbers, dates and times with their styles. */
export function workbookOf(text) {
    const shared = [];
    const cell = (value, at) => {
        if (value === '') return '';
        const [date, time] = [/^\d{4}-\d\d-\d\d$/.test(value), /^(\d\d):(\d\d)$/.exec(value)];
        if (date) return `<c r="${at}" s="1"><v>${(Date.parse(value) - Date.UTC(1899, 11, 30)) / 864e5}</v></c>`;
        if (time) return `<c r="${at}" s="2"><v>${(60 * time[1] + Number(time[2])) / 1440}</v></c>`;
        if (/^\d+(,\d+)?$/.test(value)) return `<c r="${at}"><v>${value.replace(',', '.')}</v></c>`;
        shared.push(`<si><t>${escaped(value)}</t></si>`);
        return `<c r="${at}" t="s"><v>${shared.length - 1}</v></c>`;
    };
    const rows = text.trimEnd().split('\n').map((line, i) => {
        const cells = line.split(';').map((value, j) => cell(value, `${column(j)}${i + 1}`));
        return `<row r="${i + 1}" spans="1:12">${cells.join('')}</row>`;
    });
    const styles = `<numFmts count="1"><numFmt numFmtId="164" formatCode="dd\\.mm\\.yyyy;@"/></numFmts>
<cellStyleXfs><xf numFmtId="14"/></cellStyleXfs>
<cellXfs><xf numFmtId="0"/><xf numFmtId="164"/><xf numFmtId="20"/></cellXfs>`;
    return packed(parts(rows.join(''), { strings: shared.join(''), styles }));
}
