// The page's lists and tables as HTML, from its state.
import { escaped } from '../html.mjs';
import { monthPicture, sampleBar } from '../picture.mjs';
import { chargedOf } from '../wages.mjs';
import { moneyText, monthText } from '../words.mjs';
import { SORTS, linesOf } from './files.mjs';
import { LABELS } from './labels.mjs';

const MOST_SHOWN = 300; // mistakes of a file

function headOf(words) {
    return `<thead><tr>${words.map((word) => `<th scope="col">${escaped(word)}</th>`).join('')}</tr></thead>`;
}

// ---- Files

/** Which files are there, each with a button that removes it, and which are not. */
export function slotsHtml({ language, files }) {
    const { slots, none } = LABELS[language];
    const slot = (sort) => {
        const own = files.filter((file) => file.sort === sort);
        const told = own.map((file) => fileHtml(file, language)).join('') || `<span>${escaped(none[sort])}</span>`;
        return `<li class="${own.length > 0 ? 'there' : ''}"><b>${escaped(slots[sort])}</b><div>${told}</div></li>`;
    };
    return Object.keys(SORTS).map(slot).join('');
}

function fileHtml({ sort, name, rows }, language) {
    const { lines, remove } = LABELS[language];
    const button = `<button type="button" class="remove" data-remove="${escaped(name)}" data-sort="${sort}"
aria-label="${escaped(remove(name))}" title="${escaped(remove(name))}">×</button>`;
    return `<span class="file">${escaped(name)} <small>${escaped(lines(rows))}</small>${button}</span>`;
}

/** What stands in the columns of the trips. */
export function columnsHtml({ language }) {
    const told = Object.entries(LABELS[language].columns);
    return told.map(([names, text]) => `<dt><code>${escaped(names)}</code></dt><dd>${escaped(text)}</dd>`).join('');
}

// ---- Mistakes, beside the line

export function mistakesCount({ language, result: { errors, warnings } }) {
    const { errors: told, warnings: warned } = LABELS[language];
    return [...(errors > 0 ? [told(errors)] : []), ...(warnings > 0 ? [warned(warnings)] : [])].join(', ');
}

/** A table for each file that has mistakes. */
export function mistakesHtml(mistakes, state) {
    const files = [...new Set(mistakes.map(({ file }) => file))];
    return files.map((name) => mistakesTable(name, mistakes.filter(({ file }) => file === name), state)).join('');
}

function mistakesTable(name, mistakes, { language, files }) {
    const { mistakeColumns, further } = LABELS[language];
    const file = files.find((own) => own.name === name);
    const lines = file ? linesOf(file) : [];
    const rows = mistakes.slice(0, MOST_SHOWN).map((mistake) => mistakeRow(mistake, lines, language));
    const rest = mistakes.length - rows.length;
    return `<table class="mistakes"><caption>${escaped(name)}</caption>${headOf(Object.values(mistakeColumns))}
<tbody>${rows.join('')}</tbody></table>${rest > 0 ? `<p>${escaped(further(rest))}</p>` : ''}`;
}

function mistakeRow({ line, kind, text }, lines, language) {
    const there = (lines[line - 1] ?? '').slice(0, 200);
    const told = `<b>${escaped(LABELS[language].kinds[kind])}:</b> ${escaped(text)}`;
    const column = escaped(LABELS[language].mistakeColumns.line);
    return `<tr class="${kind}"><th scope="row" data-column="${column}">${line}</th>
<td><code>${escaped(there)}</code></td><td>${told}</td></tr>`;
}

// ---- Months and wages

/** The months to choose from; the one meant is among them, whether or not it has trips yet. */
export function monthsHtml({ language, result: { months, period } }) {
    const { allMonths, closedMonth } = LABELS[language];
    const there = months.some(({ month }) => month === period) || period === null;
    const all = there ? months : [...months, { month: period, closed: false }];
    const option = (value, text) => {
        const selected = value === (period ?? '') ? ' selected' : '';
        return `<option value="${value}"${selected}>${escaped(text)}</option>`;
    };
    const own = all.map(({ month, closed }) => {
        const name = monthText(month, language);
        return option(month, closed ? closedMonth(name) : name);
    });
    return [...own, option('', allMonths)].join('');
}

/** The columns of the wages' table by name; without a ceiling nothing says what was charged besides. */
function wageColumnsOf({ period, ceiling }, language) {
    const { wageColumns, periodUtc } = LABELS[language];
    const shown = { period: period === null, charged: ceiling !== null };
    const words = ceiling === null ? wageColumns : { ...wageColumns, period: periodUtc };
    return Object.entries(words).filter(([name]) => shown[name] ?? true);
}

/** The wages' table, with the month at a glance; a member's name is the button that shows the statement. */
export function wagesHtml({ wages, period, ceiling }, glance, language) {
    if (wages.length === 0) return '';
    const { wages: caption, total, barsTitle, collected } = LABELS[language];
    const highest = Math.max(1, ...glance.flatMap(({ bars }) => bars.map(({ charged, off }) => charged + off)));
    const columns = wageColumnsOf({ period, ceiling }, language);
    const head = columns.map(([name, word]) => {
        const text = name === 'bars' ? barsTitle(sampleBar('priced'), sampleBar('cut')) : escaped(word);
        return `<th scope="col" class="${name}">${text}</th>`;
    });
    const rows = wages.map((row, i) => rowHtml(columns, cellsOf(row, glance[i], highest, language)));
    const sums = { ...sumsOf(wages, glance, language), member: escaped(total) };
    return `<table class="wages"><caption>${escaped(caption)}</caption><thead><tr>${head.join('')}</tr></thead>
<tbody>${rows.join('')}</tbody><tfoot>${rowHtml(columns, sums)}</tfoot></table>${
        ceiling === null ? '' : `<p><small>${escaped(collected(moneyText(ceiling, language)))}</small></p>`
    }`;
}

/** A row's cells by column, as HTML. */
function cellsOf({ member, period, number, ...numbers }, glance, highest, language) {
    const name = escaped(member);
    const told = number === undefined ? '' : ` <small>${escaped(number)}</small>`;
    return {
        ...numberCells({ ...numbers, charged: chargedOf(numbers), off: glance.off }, language),
        member: `<button type="button" data-member="${name}">${name}</button>${told}`,
        period: escaped(monthText(period, language)),
        bars: monthPicture(glance, highest),
    };
}

function sumsOf(wages, glance, language) {
    const sum = (rows, key) => rows.reduce((all, row) => all + row[key], 0);
    const [trips, refused, cents] = ['trips', 'refused', 'cents'].map((key) => sum(wages, key));
    const charged = wages.reduce((all, row) => all + chargedOf(row), 0);
    const cells = numberCells({ trips, refused, cents, charged, off: sum(glance, 'off') }, language);
    return { ...cells, period: '', bars: '' };
}

function numberCells({ trips, refused, off, cents, charged }, language) {
    return {
        trips: String(trips),
        refused: refused === 0 ? '–' : String(refused),
        off: off === 0 ? '–' : escaped(`−${moneyText(off, language)}`),
        amount: escaped(moneyText(cents, language)),
        charged: escaped(moneyText(charged, language)),
    };
}

function rowHtml(columns, cells) {
    const cell = ([name, word]) => {
        if (name === 'member') return `<th scope="row" class="member">${cells[name]}</th>`;
        return `<td class="${name}" data-column="${escaped(word)}">${cells[name]}</td>`;
    };
    return `<tr>${columns.map(cell).join('')}</tr>`;
}

/** What is to be thought of before the month is closed. */
export function doubtsHtml({ result: { closing } }) {
    return closing.map(({ kind, text }) => `<li class="${kind}">${escaped(text)}</li>`).join('');
}
