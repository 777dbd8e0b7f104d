// A window of a statement as one picture, for pages that cannot hold HTML: docs/statement.svg. It is made of the desk's
// sample by the desk's own modules, so it shows what the page shows; colours are the page's, on a ground of their own.
import { escaped } from './html.mjs';
import { levelPicture, windowPicture } from './picture.mjs';
import { runDesk } from './run.mjs';
import { membersOf, statementOf } from './statement.mjs';

const SHOWN = { period: '2026-10', member: 'Anna Berg', window: 0, language: 'en' };
const [WIDTH, EDGE, LINE] = [880, 36, 19]; // the picture's width, what is left free at its sides, a line's height
const PLACES = { number: EDGE, trip: 62, who: 470, price: 640, off: 742, charge: WIDTH - EDGE }; // of amounts the ends
const BAR = { who: 395, from: PLACES.who, width: 190 }; // of a cap: who, and how full

/** The picture; `read` gives the text of a file of the checkout. */
export function shownStatement(engine, read) {
    const [areas, stops, trips] = ['areas', 'stops', 'trips'].map((name) => read(`desk/sample/${name}.csv`));
    const { period, member, window, language } = SHOWN;
    const result = runDesk({ engine, files: { areas, stops, trips }, period, language });
    const statement = statementOf(membersOf(result).find(({ name }) => name === member), result, language);
    const { windows, words } = statement;
    const which = `window ${window + 1} of ${windows.length}`;
    const rows = [headRow(statement), ...windowRows(windows[window], which, words)];
    return pictureOf(rows, styleOf(read('desk/page/statement.css')), `${statement.title}, ${member}`);
}

// ---- Rows: each has a height, and is drawn at its upper edge

function text(name, x, y, words) {
    return `<text class="${name}" x="${x}" y="${y}">${escaped(words)}</text>`;
}

function rule(name, y, height = 1) {
    return `<rect class="${name}" x="${EDGE}" y="${y}" width="${WIDTH - 2 * EDGE}" height="${height}"/>`;
}

/** Another picture of the desk's, in a place of its own. */
function within(picture, x, y, width, height) {
    return `<svg x="${x}" y="${y}" width="${width}" height="${height}" overflow="visible">${picture}</svg>`;
}

function headRow({ member, title, counts, total, words }) {
    const draw = (y) => [
        text('name', EDGE, y + 56, member),
        text('soft', EDGE, y + 78, `${title}, ${counts}`),
        text('total end', WIDTH - EDGE, y + 78, `${words.total} ${total}`),
        rule('priced', y + 90, 2),
    ];
    return { height: 92, draw };
}

function windowRows({ heading, until, drawn, trips, sum, total, caps }, which, words) {
    const picture = windowPicture(drawn);
    const tall = Number(/height="(\d+)"/.exec(picture)[1]);
    const title = (y) => [
        text('strong', EDGE, y + 32, `${heading} ${until}`),
        text('small end', WIDTH - EDGE, y + 32, which),
    ];
    const hours = (y) => [within(picture, EDGE, y, WIDTH - 2 * EDGE, tall)];
    return [
        { height: 44, draw: title },
        { height: tall + 10, draw: hours },
        columnsRow(words.columns),
        ...trips.map(tripRow),
        sumRow(sum, total),
        { height: 30, draw: (y) => [text('soft', EDGE, y + 24, words.caps)] },
        ...caps.flatMap((cap) => capRows(cap, words)),
    ];
}

function columnsRow(columns) {
    const word = (look, name, y) => text(look, PLACES[name], y, columns[name]);
    const draw = (y) => [
        ...['trip', 'who'].map((name) => word('small', name, y + 16)),
        ...['price', 'off', 'charge'].map((name) => word('small end', name, y + 16)),
        rule('line', y + 24),
    ];
    return { height: 25, draw };
}

/** A ride of one part: three lines of words, and beside them a line for each who rode. */
function tripRow({ number, when, where, how, parts: [{ measure, riders }, ...more] }) {
    if (more.length > 0) throw new Error('a ride of two parts is not shown');
    const lines = Math.max(3, riders.length);
    const draw = (y) => [
        text('soft', PLACES.number, y + LINE + 2, number),
        text('strong', PLACES.trip, y + LINE + 2, when),
        text('plain', PLACES.trip, y + 2 * LINE + 2, where),
        text('small', PLACES.trip, y + 3 * LINE + 2, `${how} · ${measure}`),
        ...riders.flatMap((rider, i) => riderTexts(rider, y + (i + 1) * LINE + 2)),
        rule('line', y + lines * LINE + 14),
    ];
    return { height: lines * LINE + 15, draw };
}

function riderTexts({ who, price, off, mark, charge }, y) {
    const taken = off ? [text('plain end', PLACES.off, y, `−${off}`), text('mark', PLACES.off + 2, y - 4, mark)] : [];
    return [
        text('plain', PLACES.who, y, who),
        ...(price ? [text('plain end', PLACES.price, y, price)] : []),
        ...taken,
        text('plain end', PLACES.charge, y, charge),
    ];
}

function sumRow(sum, total) {
    const draw = (y) => [text('strong end', PLACES.off, y + 24, sum), text('strong end', PLACES.charge, y + 24, total)];
    return { height: 38, draw };
}

/** A cap, and a line for how full each has it. */
function capRows({ mark, words: name, fills }, words) {
    return fills.map(({ who, amount, share, full }, i) => {
        const draw = (y) => [
            ...(i === 0 ? [text('cap', PLACES.trip, y + 16, name), text('mark', EDGE, y + 12, mark)] : []),
            text('cap', BAR.who, y + 16, who),
            within(levelPicture(share), BAR.from, y + 7, BAR.width, 9),
            text('cap end', PLACES.charge, y + 16, full ? `${words.full}, ${amount}` : amount),
        ];
        return { height: 24, draw };
    });
}

// ---- The whole

function pictureOf(rows, style, title) {
    const drawn = [];
    let y = 0;
    for (const { height, draw } of rows) {
        drawn.push(...draw(y));
        y += height;
    }
    const height = y + EDGE - 6;
    const size = `width="${WIDTH}" height="${height}" viewBox="0 0 ${WIDTH} ${height}"`;
    return `<svg xmlns="http://www.w3.org/2000/svg" role="img" ${size}>
<title>${escaped(title)}</title>
<style>
${style}
</style>
<rect class="paper" x="0.5" y="0.5" width="${WIDTH - 1}" height="${height - 1}" rx="10"/>
${drawn.join('\n')}
</svg>
`;
}

/** The page's own colours and bars, with its names for colours filled in, and the letters of this picture. */
function styleOf(css) {
    const colours = new Map([...css.split('}')[0].matchAll(/--(\w+): ([^;]+);/g)].map(([, name, is]) => [name, is]));
    const bars = css.split('\n').filter((line) => /^\.(line|priced|cut|refused|picture text) \{/.test(line));
    const own = [
        `text { font: 15px system-ui, -apple-system, 'Segoe UI', Roboto, 'Helvetica Neue', Arial, sans-serif; }`,
        'text { fill: var(--ink); font-variant-numeric: tabular-nums; }',
        '.paper { fill: var(--paper); stroke: var(--line); }',
        '.name { font-size: 26px; font-weight: 600; }',
        '.total { font-size: 20px; font-weight: 600; }',
        '.strong { font-weight: 600; }',
        '.cap { font-size: 14px; }',
        '.soft { fill: var(--soft); }',
        '.small { font-size: 12.5px; fill: var(--soft); }',
        '.mark { font-size: 11px; fill: var(--accent); }',
        '.end { text-anchor: end; }',
        '.picture text { font-size: 11.5px; }',
    ];
    return [...own, ...bars].join('\n').replace(/var\(--(\w+)\)/g, (_, name) => colours.get(name));
}
