// The pictures, as SVG that reads in black and white, too: a window's 24 hours with its trips, how full a cap is, and a
// month's windows as bars. Places across are shares of the width, so that they fit every screen and the text within
// them stays as large as the text around it; colours are the style sheet's. All of it is said in words beside them.
import { escaped } from './html.mjs';
import { momentIn } from './trips.mjs';
import { STATEMENT, dayText } from './words.mjs';

const WINDOW = 1440;
const [LANE, BAR] = [13, 8]; // heights: a row of numbers, a trip

const share = (part, whole) => `${((100 * part) / whole).toFixed(2)}%`;

function rect(name, x, y, width, height) {
    return `<rect class="${name}" x="${x}" y="${y}" width="${width}" height="${height}" rx="2"/>`;
}

function label(minute, y, text) {
    return `<text x="${share(minute, WINDOW)}" y="${y}">${escaped(text)}</text>`;
}

// ---- A window

/** The picture of {opening, clock, trips, language} as the statement has them. */
export function windowPicture({ opening, clock, trips, language }) {
    const place = (minute) => Math.min(WINDOW, Math.max(0, minute - opening));
    const numbers = numberLanes(trips, place);
    const line = LANE * numbers.lanes + BAR + 5;
    return `<svg class="picture" role="img" width="100%" height="${line + 20}">
<title>${escaped(STATEMENT[language].picture)}</title>
${rect('line', 0, line, '100%', 1)}${hourTicks(opening, clock, language, line)}
${numbers.texts.join('')}${trips.map((trip) => tripBar(trip, place, line - BAR - 2)).join('')}
</svg>`;
}

/** A tick at each third hour of the clock, with its name, at midnight the day's; none where a name would be cut off. */
function hourTicks(opening, clock, language, y) {
    const first = 60 - Number(momentIn(clock, opening).local.slice(14));
    const ticks = [];
    for (let minute = first % 60; minute <= WINDOW; minute += 60) {
        const { local } = momentIn(clock, opening + minute);
        const hour = Number(local.slice(11, 13));
        if (hour % 3 !== 0 || minute < 60 || minute > WINDOW - 60) continue;
        ticks.push(rect('line', share(minute, WINDOW), y, 1, 4));
        ticks.push(label(minute, y + 16, hour === 0 ? dayText(local, language).split(' ')[0] : `${hour}:00`));
    }
    return ticks.join('');
}

const DIGIT = 36; // minutes that a number's digit takes up across, on a small screen

/** The trips' numbers above their bars, in up to four lanes so that neighbours do not cover each other. */
function numberLanes(trips, place) {
    const ends = [];
    const found = trips.map((trip) => {
        const text = trip.counts ? String(trip.number) : `(${trip.number})`;
        const half = (DIGIT / 2) * text.length;
        const at = Math.min(WINDOW - half, Math.max(half, (place(trip.from) + place(trip.to)) / 2));
        const lane = ends.findIndex((end) => end <= at - half);
        const own = lane >= 0 ? lane : ends.length;
        if (own < 4) ends[own] = at + half;
        return { text, at, lane: own };
    });
    const lanes = ends.length;
    const shown = found.filter(({ lane }) => lane < 4);
    return { lanes, texts: shown.map(({ text, at, lane }) => label(at, LANE * (lanes - lane) - 2, text)) };
}

/** A trip's bar, of at least five minutes so that it is seen. Its state is the class: priced, cut or refused. */
function tripBar({ from, to, state }, place, y) {
    return rect(state, share(place(from), WINDOW), y, share(Math.max(5, place(to) - place(from)), WINDOW), BAR);
}

/** A short bar of the same look, for where it is said what it means. */
export function sampleBar(state) {
    return `<svg class="picture swatch" aria-hidden="true" width="22" height="10">${rect(state, 1, 1, 20, BAR)}</svg>`;
}

// ---- A cap

/** How full a cap is. */
export function levelPicture(full) {
    const bars = [rect('line', 0, 0, '100%', '100%'), rect('priced', 0, 0, share(full, 1), '100%')];
    return `<svg class="level" aria-hidden="true">${bars.join('')}</svg>`;
}

// ---- A month

const [TALL, FLOOR] = [34, 33]; // heights: the picture, and where its bars stand
const GAP = 180; // minutes that a bar is narrower than its window, so that one is told from the next

/** A month's windows: each a bar at its time, as high as what was charged, and on it what caps took off. */
export function monthPicture({ bars, minutes, words }, highest) {
    const height = (cents) => ((FLOOR - 1) * cents) / highest;
    const paid = bars.map(({ from, to, charged }) => boxPath(from, to, 0, height(charged)));
    const taken = bars.map(({ from, to, charged, off }) => boxPath(from, to, height(charged), height(charged + off)));
    const told = [words, ...bars.map(({ title }) => title)].join('\n');
    return `<svg class="month" role="img" aria-label="${escaped(words)}" width="100%" height="${TALL}"
viewBox="0 0 ${minutes} ${TALL}" preserveAspectRatio="none"><title>${escaped(told)}</title>
<path class="line" d="M0 ${FLOOR}h${minutes}v1H0z"/><path class="cut" d="${taken.join('')}"/>
<path class="priced" d="${paid.join('')}"/></svg>`;
}

/** A bar as part of a path: of a thousand members' windows, elements of their own would be a heavy page. */
function boxPath(from, to, low, top) {
    if (top === low) return '';
    const [bottom, high] = [FLOOR - low, FLOOR - top].map((place) => place.toFixed(1));
    return `M${from} ${bottom}V${high}H${to - GAP}V${bottom}z`;
}
