// A member's statement, to hand over: as words and figures (`statementOf`), which all forms share, and as text. Amounts
// are those of the entries; what is added up here are totals, and they have to be the wages'.
import { Disagreement, centsOf } from './account.mjs';
import { clockOf, dayOf, momentsOf, monthOf } from './clock.mjs';
import { WINDOW } from './editions.mjs';
import { momentIn } from './trips.mjs';
import { chargedOf } from './wages.mjs';
import { STATEMENT, capClassText, capText, classText, dayText, editionText, moneyText, monthText } from './words.mjs';
import { reasonText, riderText, seasonText } from './words.mjs';

/** Those members that have a statement: with a trip in the period. */
export function membersOf({ members }) {
    return members.filter(({ entries }) => entries.some(({ inPeriod }) => inPeriod));
}

/** All that a statement says, in words. */
export function statementOf(member, result, language) {
    const saying = { language, words: STATEMENT[language], result, clock: clockOf(result.zone) };
    const { words } = saying;
    const windows = member.windows.filter(({ entries }) => entries.some(({ inPeriod }) => inPeriod));
    const own = member.entries.filter(({ inPeriod }) => inPeriod);
    return {
        language,
        words,
        member: member.name,
        title: words.title(result.period && monthText(result.period, language)),
        counts: [...countsOf(own, saying), ...cancelledOf(member, saying)].join(', '),
        totalName: result.ceiling === null ? words.total : words.collected,
        total: moneyText(agreedTotal(member, own, result), language),
        windows: windows.map((window) => windowOf(window, saying)),
        ending: result.ceiling === null ? null : endingOf(member, saying),
        foot: footOf(saying),
    };
}

/** How many trips there are, and how many of them are refused and corrected. */
function countsOf(entries, { words }) {
    const refused = entries.filter(({ accepted }) => !accepted).length;
    const corrected = entries.filter(({ original }) => original).length;
    return [
        words.trips(entries.length - refused),
        ...(refused > 0 ? [words.refusals(refused)] : []),
        ...(corrected > 0 ? [words.corrections(corrected)] : []),
    ];
}

/** How many of the member's trips would be here if they were not cancelled. */
function cancelledOf({ name }, { words, result: { corrections, period, booksPeriod } }) {
    const isHere = ({ month }) => (period === null ? month > (booksPeriod ?? '') : month === period);
    const own = (corrections?.cancelled ?? []).filter((trip) => trip.member === name && isHere(trip));
    return own.length > 0 ? [words.cancelled(own.length)] : [];
}

/** Looks whether the wages have the totals of all statements, for whoever puts wages out without them. */
export function agreeStatements(result) {
    const rows = new Map(membersOf(result).map(({ name }) => [name, []]));
    for (const row of result.wages) rows.get(row.member)?.push(row);
    for (const { name, entries } of membersOf(result)) {
        agreeTotals(name, entries.filter(({ inPeriod }) => inPeriod), rows.get(name));
    }
}

/** What the member pays. Where the wages have other sums than the statement shows, there is no statement. */
function agreedTotal({ name }, entries, { wages }) {
    return agreeTotals(name, entries, wages.filter(({ member }) => member === name));
}

/** The charges, and what is paid of them: all, or what is collected under a ceiling. */
function agreeTotals(name, entries, wages) {
    const due = (of) => wages.reduce((sum, row) => sum + of(row), 0);
    const paid = ({ collected, parts }) => collected ?? centsOf(parts ?? []);
    agree(name, totalOf(entries), due(chargedOf));
    return agree(name, entries.reduce((sum, entry) => sum + paid(entry), 0), due(({ cents }) => cents));
}

function agree(name, shown, due) {
    if (shown !== due) throw new Disagreement(name, `statement and wages: ${shown} and ${due} cents`);
    return shown;
}

function totalOf(entries) {
    return entries.reduce((sum, { parts }) => sum + centsOf(parts ?? []), 0);
}

/** All that was charged to anyone in the entries. */
function ridersOf(entries) {
    return entries.flatMap(({ parts }) => (parts ?? []).flatMap((part) => part.riders));
}

/** How a statement ends under a ceiling: charges, ceiling and what is collected, by month; and whose months these are. */
function endingOf({ name }, { language, words, result: { wages, ceiling } }) {
    const own = wages.filter(({ member }) => member === name);
    const rows = own.flatMap(({ period, cents, charged }) => [
        [words.charged(monthText(period, language)), moneyText(charged, language)],
        [words.ceiling, moneyText(ceiling, language)],
        [words.collected, moneyText(cents, language)],
    ]);
    return { note: words.utc, rows };
}

/** `tariff` has a line for each edition. */
function footOf(saying) {
    const { language, words, result: { tariff, version } } = saying;
    const line = (edition) => words.tariff(editionName(edition, saying), edition.areas.length, edition.stops.length);
    return {
        tariff: tariff.editions.map(line),
        hash: `${words.hash}: ${tariff.hash}`,
        version: words.version(version),
        language,
    };
}

/** What an edition is called: by its state's name and, where there are several, by its days. */
function editionName(edition, { language, words, result: { tariff } }) {
    const [{ name }] = edition.areas;
    return tariff.editions.length === 1 ? words.only(name) : words.edition(name, editionText(edition, language));
}

// ---- Windows

function windowOf(window, saying) {
    const { language, words, result, clock } = saying;
    const edition = result.tariff.editions[window.edition - 1] ?? null; // of trips without a window there is none
    const fills = fillsOf(window.sums, edition, saying);
    const caps = capsIn(window.entries, fills, edition, saying);
    const trips = window.entries.map((entry, i) => tripOf(entry, i + 1, { ...saying, caps }));
    const counts = window.entries.filter(({ inPeriod }) => inPeriod);
    const mixed = counts.length < window.entries.length;
    const common = {
        ...{ trips, fills, caps },
        sum: words.sum(mixed && monthText(result.period, language)),
        total: moneyText(totalOf(counts), language),
    };
    if (window.opening === null) return { ...common, heading: words.noWindow, until: '', notes: [] };
    const [from, to] = [window.openingLocal, momentIn(clock, window.opening + WINDOW)];
    return {
        ...common,
        heading: words.window(stampText(from, saying)),
        until: words.until(stampText(to, saying)),
        notes: notesOf(window, edition, to, saying),
        drawn: { opening: window.opening, clock, trips, language },
    };
}

/** Its edition; why a window's caps may be fuller than its trips make them; and where its further trips are. */
function notesOf({ opening, entries }, edition, to, saying) {
    const { language, words, result: { period, tariff, monthZone } } = saying;
    const several = tariff.editions.length > 1 ? [editionName(edition, saying)] : [];
    const first = entries.find(({ accepted }) => accepted);
    const earlier = !first || first.checkIn.minute > opening;
    const month = monthOf(monthZone, to.minute);
    const later = period !== null && month > period;
    const further = later ? [words.later(monthText(month, language))] : [];
    return [...several, ...(earlier ? [words.earlier] : []), ...further];
}

// ---- Caps

const capKey = (area, capClass) => 2 * area - capClass; // in the tariff's order, the second class before all classes
const letterOf = (i) => 'abcdefghijklmnopqrstuvwxyz'[i % 26].repeat(1 + Math.floor(i / 26));

/** A window's caps, each once: how full every rider has it, and a letter where it took something off. */
function capsIn(entries, fills, edition, { language }) {
    const cuts = ridersOf(entries).filter(({ cap }) => cap).map(({ cap }) => ({ area: cap.area, capClass: cap.class }));
    const keyed = (caps) => new Map(caps.map((cap) => [capKey(cap.area, cap.capClass), cap]));
    const cutting = [...keyed(cuts).keys()].sort((one, other) => one - other);
    const all = [...keyed([...fills, ...cuts])].sort(([one], [other]) => one - other);
    return all.map(([key, { area, capClass }]) => ({
        key,
        mark: cutting.includes(key) ? letterOf(cutting.indexOf(key)) : '',
        words: capText(edition.areas[area].name, capClass, language),
        fills: fills.filter((fill) => capKey(fill.area, fill.capClass) === key),
    }));
}

/** How full each rider has each cap. */
function fillsOf(sums, edition, saying) {
    return sums.flatMap((rider) => rider.areas.flatMap((own) => areaFills(rider, own, edition, saying)));
}

/** How full a rider has an area's caps; that of all classes only where first class was among the charges. */
function areaFills(rider, { area, second, all }, { areas, caps: capsBy }, { language, words }) {
    const caps = capsBy[area]?.[rider.sort === 'child' ? 'child' : 'adult'];
    if (!caps) return [];
    const fill = (capClass, sum, cap) => ({
        ...{ area, capClass, who: riderText(rider, language) },
        name: `${areas[area].name}, ${capClassText(capClass, language)}`,
        amount: words.of(moneyText(sum, language), moneyText(cap, language)),
        cap: moneyText(cap, language),
        share: Math.min(1, sum / cap),
        full: sum >= cap,
    });
    return [...(second > 0 ? [fill(2, second, caps.second)] : []), ...(all > second ? [fill(1, all, caps.all)] : [])];
}

// ---- Trips

function tripOf(entry, number, saying) {
    const { language, words, result } = saying;
    const edition = result.tariff.editions[entry.edition - 1];
    const stop = (index) => edition.stops[index].name;
    const via = entry.via.length > 0 ? [words.via(entry.via.map(stop).join(', '))] : [];
    const level = entry.level === null ? [] : [words.level(entry.level)];
    const elsewhere = entry.inPeriod ? [] : [words.elsewhere(monthText(entry.month, language))];
    const corrected = entry.original ? [words.corrected] : [];
    return {
        ...{ number, from: entry.checkIn.minute, to: entry.checkOut.minute, counts: entry.inPeriod },
        state: stateOf(entry),
        when: whenText(entry, saying),
        where: `${stop(entry.from)} → ${stop(entry.to)}`,
        how: [...via, classText(entry.class, language), ...level, ...elsewhere, ...corrected].join(', '),
        refused: entry.accepted ? null : refusedText(entry, saying),
        parts: (entry.parts ?? []).map((part, i) => partOf(entry, part, i, edition, saying)),
    };
}

/** Why a trip is refused, and where it stands; its file is named where there are several. */
function refusedText(entry, { language, words, result: { tariff, tripFiles } }) {
    const { line, file } = entry;
    const place = words.place(line, tripFiles.length > 1 ? file : null);
    return words.refused(reasonText(entry, tariff.editions, language), place);
}

function stateOf({ accepted, parts }) {
    if (!accepted) return 'refused';
    return parts.some(({ riders }) => riders.some(({ off }) => off > 0)) ? 'cut' : 'priced';
}

function partOf(entry, { area, km, minutes, riders }, i, { areas, stops }, { language, words, caps }) {
    const broken = entry.parts.length > 1;
    const turn = broken ? farthestChange(entry, stops) : null;
    const [from, to] = i === 0 ? [entry.from, turn] : [turn, entry.to];
    const time = i === 0 ? [`${minutes} min`] : []; // a second part's minutes are the first one's
    return {
        heading: broken ? words.part(i + 1, stops[from].name, stops[to].name) : null,
        measure: [areas[area].name, `${km} km`, ...time].join(', '),
        riders: riders.map((rider) => ({
            who: riderText(rider, language),
            price: rider.price === null ? '' : moneyText(rider.price, language),
            off: rider.cap ? moneyText(rider.off, language) : '',
            ...capOf(rider, caps),
            charge: moneyText(rider.charge, language),
        })),
    };
}

function capOf({ cap }, caps) {
    if (!cap) return { cap: '', mark: '' };
    const { words, mark } = caps.find(({ key }) => key === capKey(cap.area, cap.class));
    return { cap: words, mark };
}

/** Where a ride that comes back is broken: at the change farthest from the start, the first of equals. */
function farthestChange({ from, via }, stops) {
    const distance = (stop) => (stops[stop].x - stops[from].x) ** 2 + (stops[stop].y - stops[from].y) ** 2;
    return via.reduce((farthest, stop) => (distance(stop) > distance(farthest) ? stop : farthest));
}

// ---- Times

/** 'Fr 02.10.2026, 05:08 – 05:20'; the second day is named where it is another. */
function whenText({ checkIn, checkOut }, saying) {
    const change = checkIn.offset !== checkOut.offset;
    const from = stampText(checkIn, saying, change);
    const sameDay = checkOut.local.slice(0, 10) === checkIn.local.slice(0, 10);
    return `${from} – ${(sameDay ? clockText : stampText)(checkOut, saying, change)}`;
}

function stampText(moment, saying, change) {
    return `${dayText(moment.local, saying.language)}, ${clockText(moment, saying, change)}`;
}

/** The clock time, with its season where it is there twice or where the clock is changed on the way. */
function clockText({ local, offset }, { language, clock }, change = false) {
    const [hours, minutes] = local.slice(11).split(':').map(Number);
    const twice = momentsOf(clock, dayOf(local.slice(0, 10)), 60 * hours + minutes).length > 1;
    return local.slice(11) + (change || twice ? ` ${seasonText(offset, language)}` : '');
}

// ---- As text

const WIDTH = 80;

/** A member's statement as text. */
export function statementText(member, result, language) {
    const { title, counts, totalName, total, words, windows, ending, foot } = statementOf(member, result, language);
    const head = [title, member.name, '='.repeat(WIDTH), amountLine(counts, `${totalName} ${total}`)];
    const end = ending ? [...endingLines(ending), ''] : [];
    const tail = ['-'.repeat(WIDTH), ...foot.tariff, foot.hash, foot.version];
    const own = windows.flatMap((window) => [...windowLines(window, words), '']);
    const lines = [...head, '', ...own, ...end, ...tail];
    return `${lines.join('\n')}\n`.replaceAll('\u00a0', ' ');
}

function endingLines({ note, rows }) {
    return ['='.repeat(WIDTH), ...wrapped(note, 0), ...rows.map(([words, amount]) => amountLine(words, amount))];
}

/** A text at the left, an amount at the right. */
function amountLine(text, amount) {
    return `${text}${' '.repeat(Math.max(2, WIDTH - text.length - amount.length))}${amount}`;
}

/** A text in lines of at most the width, behind blanks; a word that is longer than a line stays whole. */
function wrapped(text, blanks) {
    const lines = [];
    for (const word of text.split(' ')) {
        const longer = lines.length > 0 ? `${lines.at(-1)} ${word}` : null;
        if (longer !== null && longer.length <= WIDTH - blanks) lines[lines.length - 1] = longer;
        else lines.push(word);
    }
    return lines.map((line) => ' '.repeat(blanks) + line);
}

function windowLines({ heading, until, trips, notes, sum, total, fills }, words) {
    const levels = fills.map(({ who, name, amount, full }) => {
        return amountLine(`    ${who}: ${name}`, full ? `${words.full}, ${amount}` : amount);
    });
    return [
        ...[`${heading} ${until}`.trim(), '-'.repeat(WIDTH), ...notes.flatMap((note) => wrapped(note, 0))],
        ...trips.flatMap((trip) => tripLines(trip, words)),
        amountLine(sum, total),
        ...(levels.length > 0 ? [`${words.caps}:`, ...levels] : []),
    ];
}

function tripLines({ number, when, where, how, refused, parts }, words) {
    const broken = parts.length > 1 ? [words.outAndBack] : [];
    const whole = parts.length === 1 ? `${how} · ${parts[0].measure}` : how;
    const head = [where, whole, ...(refused ? [refused] : []), ...broken];
    return [
        `${String(number).padStart(2)}. ${when}`,
        ...head.flatMap((line) => wrapped(line, 4)),
        ...parts.flatMap(({ heading, measure, riders }) => [
            ...(heading ? wrapped(`${heading} (${measure})`, 4) : []),
            ...riders.flatMap((rider) => riderLines(rider, words)),
        ]),
    ];
}

function riderLines({ who, price, off, cap, charge }, words) {
    const taken = `${words.columns.price} ${price}, ${words.columns.off.toLowerCase()} ${off}: ${cap}`;
    return [amountLine(`        ${who}`, charge), ...(cap ? wrapped(taken, 12) : [])];
}
