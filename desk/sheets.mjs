// Statements as HTML: for the page, for print, and as a file to keep.
import { escaped } from './html.mjs';
import { fileSafe } from './names.mjs';
import { levelPicture, sampleBar, windowPicture } from './picture.mjs';
import { membersOf, statementOf } from './statement.mjs';
import { STATEMENT, dateText, monthText } from './words.mjs';

/**
 * A member's statement as an element that can stand in any page. Printed, its header is at the top of each sheet.
 * `letter` says from whom it comes and when: {name, contact, date}, each a text that may be empty; null: nothing.
 */
export function statementHtml(member, result, language, letter = null) {
    const { title, counts, totalName, total, words, windows, ending, foot } = statementOf(member, result, language);
    return `<article class="statement" lang="${language}">${letterHtml(letter, language)}
<header><h2>${escaped(member.name)}</h2><p>${escaped(title)}</p></header>
<div class="sheet">
<p class="sum"><span>${escaped(counts)}</span> <strong>${escaped(totalName)} ${escaped(total)}</strong></p>
${windows.slice(0, -1).map((window) => windowHtml(window, words)).join('\n')}
<div class="end">${windowHtml(windows.at(-1), words)}${endingHtml(ending, words)}
<footer>${legendHtml(windows, words)}
<p>${[...foot.tariff, foot.version].map((line) => `${escaped(line)}.`).join(' ')}</p>
<p class="hash">${escaped(foot.hash)}</p></footer></div>
</div></article>`;
}

function letterHtml(letter, language) {
    if (!letter || Object.values(letter).every((text) => text === '')) return '';
    const { name, contact, date } = letter;
    const day = date === '' ? '' : dateText(date, language);
    return `<div class="letter"><p><b>${escaped(name)}</b> ${escaped(contact)}</p><p>${escaped(day)}</p></div>`;
}

/** A window as a section. Its sum is no `tfoot`, since browsers print that on each sheet, and the sums would add up. */
function windowHtml({ heading, until, trips, notes, sum, total, caps, drawn }, words) {
    const columns = Object.entries(words.columns);
    const head = columns.map(([column, word]) => `<th scope="col" class="${column}">${escaped(word)}</th>`).join('');
    return `<section class="window"><h3>${escaped(heading)} <small>${escaped(until)}</small></h3>
${notes.map((note) => `<p class="note">${escaped(note)}</p>`).join('')}${drawn ? windowPicture(drawn) : ''}
<table aria-label="${escaped(heading)}"><thead><tr>${head}</tr></thead>
${trips.map((trip) => tripHtml(trip, words)).join('\n')}
<tbody class="total"><tr><th scope="row" colspan="5">${escaped(sum)}</th>
<td class="charge">${escaped(total)}</td></tr></tbody></table>${capsHtml(caps, words)}</section>`;
}

function tripHtml({ number, when, where, how, refused, parts, counts }, words) {
    const rows = parts.reduce((sum, { riders }) => sum + riders.length, 0);
    const first = `<th scope="rowgroup" class="number" rowspan="${Math.max(1, rows)}">${number}</th>`;
    const trip = `<b>${escaped(when)}</b><br>${escaped(where)}<br><small>${escaped(how)}`;
    const lead = parts.length > 1 ? `${trip}</small><br>${escaped(words.outAndBack)}<br>` : `${trip} · `;
    const body = refused
        ? `<tr>${first}<td class="trip" colspan="5">${trip}</small><br><strong>${escaped(refused)}</strong></td></tr>`
        : parts.map((part, i) => partHtml(part, ...(i === 0 ? [first, lead] : ['', '']))).join('');
    return `<tbody class="trip${counts ? '' : ' elsewhere'}${refused ? ' refused' : ''}">${body}</tbody>`;
}

/** A part's rows. The first begins with the trip's number and lead, which an unbroken trip's measure goes on. */
function partHtml({ heading, measure, riders }, first, lead) {
    const own = heading ? `${escaped(heading)}<br><small>${escaped(measure)}</small>` : `${escaped(measure)}</small>`;
    const cell = `<td class="trip" rowspan="${riders.length}">${lead}${own}</td>`;
    return riders.map((rider, i) => riderHtml(rider, i === 0 ? first + cell : '')).join('');
}

/** A rider's row. What was taken off has the letter of the cap that did it. */
function riderHtml({ who, price, off, mark, charge }, first) {
    const taken = off ? `−${escaped(off)}<sup>${mark}</sup>` : '';
    const cells = { who: escaped(who), price: escaped(price), off: taken, charge: escaped(charge) };
    const row = Object.entries(cells).map(([name, cell]) => `<td class="${name}">${cell}</td>`);
    return `<tr${off ? ' class="cut"' : ''}>${first}${row.join('')}</tr>`;
}

/** The caps, each named once with its letter, and how full every rider has it at the window's end. */
function capsHtml(caps, words) {
    if (caps.length === 0) return '';
    const level = ({ who, amount, cap: most, share, full }) => {
        const text = full ? `${words.full}, ${most}` : amount;
        return `<dd><span>${escaped(who)}</span>${levelPicture(share)}<span>${escaped(text)}</span></dd>`;
    };
    const cap = ({ mark, words: name, fills }) => {
        return `<div><dt>${mark ? `<sup>${mark}</sup> ` : ''}${escaped(name)}</dt>${fills.map(level).join('')}</div>`;
    };
    return `<h4>${escaped(words.caps)}</h4><dl class="caps">${caps.map(cap).join('\n')}</dl>`;
}

/** What was charged and collected under a ceiling, month by month. */
function endingHtml(ending, words) {
    if (ending === null) return '';
    const row = ([name, amount]) => `<tr><th scope="row">${escaped(name)}</th><td>${escaped(amount)}</td></tr>`;
    return `
<section class="ending"><h3>${escaped(words.ceiling)}</h3><p class="note">${escaped(ending.note)}</p>
<table aria-label="${escaped(words.ceiling)}"><tbody>${ending.rows.map(row).join('\n')}</tbody></table></section>`;
}

/** What the bars mean, where not all are of the plainest sort: once a statement. */
function legendHtml(windows, { legend }) {
    const trips = windows.flatMap((window) => window.trips);
    const states = Object.keys(legend).filter((state) => trips.some((trip) => trip.state === state));
    if (states.join() === 'priced') return '';
    return `<p>${states.map((state) => `<span>${sampleBar(state)} ${escaped(legend[state])}</span>`).join(' ')}</p>`;
}

// ---- Files of their own

/** All statements as one file, each member beginning on a new sheet when printed. */
export function statementsDocument(result, language, css, letter) {
    return documentOf(titleOf(result, language), membersOf(result), result, language, css, letter);
}

/** What the file of each member is called: 'Anna-Berg-2026-10.html'. */
export function documentNames({ period, ...result }) {
    const names = fileSafe(membersOf(result).map(({ name }) => name.replaceAll(' ', '-')));
    return names.map((name) => `${name}${period === null ? '' : `-${period}`}.html`);
}

/** A member's statement as a file, to be sent to her. */
export function memberDocument(member, result, language, css, letter) {
    return documentOf(`${member.name}, ${titleOf(result, language)}`, [member], result, language, css, letter);
}

function titleOf({ period }, language) {
    return STATEMENT[language].title(period && monthText(period, language));
}

function documentOf(title, members, result, language, css, letter) {
    return `<!DOCTYPE html>
<html lang="${language}"><head><meta charset="utf-8">
<meta name="viewport" content="width=device-width, initial-scale=1">
<meta http-equiv="Content-Security-Policy" content="default-src 'none'; style-src 'unsafe-inline'">
<title>${escaped(title)}</title><style>${css}</style></head>
<body class="statements">
${members.map((member) => statementHtml(member, result, language, letter)).join('\n')}
</body></html>
`;
}
