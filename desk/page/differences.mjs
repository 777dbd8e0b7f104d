// What corrections and late trips change, as tables of the page: differences, and supplements to closed months.
import { escaped } from '../html.mjs';
import { moneyText, monthText, riderText } from '../words.mjs';
import { LABELS } from './labels.mjs';

/** The table of differences, with each member's sum; a supplement says so. Nothing where there are none. */
export function differencesHtml({ differences }, language) {
    const { differences: caption, differenceColumns: columns } = LABELS[language];
    return tableHtml(caption, columns, differences.map((row) => differenceCells(row, language)));
}

function differenceCells({ member, who, rider, before, after, difference, supplement }, language) {
    const { sums, supplement: named } = LABELS[language];
    const told = supplement === null ? '' : ` <small>${escaped(named(monthText(supplement, language)))}</small>`;
    const money = (cents) => escaped(moneyText(cents, language));
    return {
        sum: who === null,
        cells: {
            member: `${escaped(member)}${told}`,
            rider: escaped(who === null ? sums[rider] : riderText(who, language)),
            ...{ before: money(before), after: money(after), difference: money(difference) },
        },
    };
}

/** The supplements, rows of their own beneath the wages; under a ceiling with what is charged. */
export function supplementsHtml({ supplements, ceiling }, language) {
    const { supplements: caption, wageColumns, periodUtc } = LABELS[language];
    const { member, period, trips, refused, amount, charged } = wageColumns;
    const counts = { member, period: ceiling === null ? period : periodUtc, trips, refused, amount };
    const columns = ceiling === null ? counts : { ...counts, charged };
    const rows = supplements.map((row) => ({ sum: false, cells: supplementCells(row, language) }));
    return tableHtml(caption, columns, rows);
}

function supplementCells({ member, period, trips, refused, cents, charged = 0, number }, language) {
    const told = number === undefined ? '' : ` <small>${escaped(number)}</small>`;
    const signed = (count) => (count === 0 ? '–' : count < 0 ? `−${-count}` : String(count));
    return {
        member: escaped(member) + told,
        period: escaped(LABELS[language].supplement(monthText(period, language))),
        ...{ trips: signed(trips), refused: signed(refused) },
        ...{ amount: escaped(moneyText(cents, language)), charged: escaped(moneyText(charged, language)) },
    };
}

function tableHtml(caption, columns, rows) {
    if (rows.length === 0) return '';
    const head = Object.entries(columns).map(([name, word]) => `<th scope="col" class="${name}">${escaped(word)}</th>`);
    const body = rows.map(({ sum, cells }) => `<tr${sum ? ' class="sum"' : ''}>${rowHtml(columns, cells)}</tr>`);
    return `<table class="wages changes"><caption>${escaped(caption)}</caption><thead><tr>${head.join('')}</tr></thead>
<tbody>${body.join('')}</tbody></table>`;
}

function rowHtml(columns, cells) {
    const cell = ([name, word]) => {
        if (name === 'member') return `<th scope="row" class="member">${cells[name]}</th>`;
        return `<td class="${name}" data-column="${escaped(word)}">${cells[name]}</td>`;
    };
    return Object.entries(columns).map(cell).join('');
}
