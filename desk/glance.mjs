// A month at a glance: beside each row of the wages the member's windows as bars, at their time in the month, with what
// was charged in them and what caps took off.
import { Disagreement } from './account.mjs';
import { clockOf, localOf } from './clock.mjs';
import { chargedOf } from './wages.mjs';
import { STATEMENT, dayText, moneyText } from './words.mjs';

const [DAY, WINDOW] = [1440, 1440];

/** For each row of the wages {off, minutes, bars: [{from, to, charged, off, title}], words}: minutes of the month. */
export function glanceOf({ wages, members, monthZone }, language) {
    const windows = new Map(members.map((member) => [member.name, member.windows]));
    return wages.map((row) => rowOf(row, windows.get(row.member), clockOf(monthZone), language));
}

function rowOf({ member, period, ...row }, windows, clock, language) {
    const bars = windows.flatMap((window) => barOf(window, period, clock, language));
    const [charged, off] = ['charged', 'off'].map((key) => bars.reduce((sum, bar) => sum + bar[key], 0));
    const due = chargedOf(row);
    if (charged !== due) throw new Disagreement(member, `windows and wages: ${charged} and ${due} cents`);
    const words = STATEMENT[language].windows(bars.length, moneyText(charged, language), moneyText(off, language));
    return { off, minutes: DAY * daysIn(period) + WINDOW, bars, words }; // the last day's window reaches beyond it
}

/** The window's bar, cut off at the month's start but never narrow; none where none of its trips is of the month. */
function barOf({ opening, openingLocal, entries }, period, clock, language) {
    const own = entries.filter(({ inPeriod, accepted, month }) => inPeriod && accepted && month === period);
    if (own.length === 0) return [];
    const riders = own.flatMap(({ parts }) => parts.flatMap((part) => part.riders));
    const [charged, off] = ['charge', 'off'].map((key) => riders.reduce((sum, rider) => sum + (rider[key] ?? 0), 0));
    const start = minutesBehind(`${period}-01T00:00`, localOf(clock, opening));
    const [from, to] = [Math.max(0, start), Math.max(WINDOW / 2, start + WINDOW)];
    const day = dayText(openingLocal.local, language);
    const title = STATEMENT[language].bar(day, moneyText(charged, language), off > 0 ? moneyText(off, language) : null);
    return [{ from, to, charged, off, title }];
}

function minutesBehind(start, local) {
    return (Date.parse(`${local}Z`) - Date.parse(`${start}Z`)) / 60000;
}

function daysIn(period) {
    const [year, month] = period.split('-').map(Number);
    return new Date(Date.UTC(year, month, 0)).getUTCDate();
}
