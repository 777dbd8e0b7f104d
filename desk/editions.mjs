// The editions of a tariff: which files each is made of, and which one settles a trip. The first is valid from
// 2000-01-01, the second from the day in the names of its files; days begin at their first minute in UTC.
import { DAY, dayOf } from './clock.mjs';

export const FIRST_DAY = '2000-01-01';

/** The minutes of a window. One that was opened under an edition stays under it, also beyond the next one's day. */
export const WINDOW = 1440;

// ---- Files

const SORTED = /^(?:areas|stops)-(.*)\.\w+$/i;
const ENDING = /(\d+-\d+-\d+)\.\w+$/;

/**
 * What stands for a day in the name of a file of areas or stops: behind `areas-` and `stops-` all of it, and in other
 * names three numbers at the end. Null where nothing does: such a file is of the first edition.
 */
export function dayInName(name) {
    const own = name.split(/[/\\]/).at(-1);
    return (SORTED.exec(own) ?? ENDING.exec(own))?.[1] ?? null;
}

/** The files of each edition as {from, areas, stops}: of the first and, where there are dated areas, of the second. */
export function editionFiles({ areas, stops }, mistakes) {
    const [ownAreas, ownStops] = [areas, stops].map((files) => filesByDay(files, mistakes));
    const [second, ...more] = [...ownAreas.keys()].filter((day) => day !== null).sort();
    for (const day of more) mistakes.error(ownAreas.get(day).name, 1, 'editionThird', { day, second });
    for (const [day, { name }] of ownStops) {
        if (day !== null && !ownAreas.has(day)) mistakes.error(name, 1, 'stopsAlone', { day });
    }
    const first = { from: FIRST_DAY, areas: ownAreas.get(null), stops: ownStops.get(null) };
    if (second === undefined) return [first];
    return [first, { from: second, areas: ownAreas.get(second), stops: ownStops.get(second) ?? first.stops }];
}

/** Day → file, null being the day of one that has none. What is no day, and a second file of a day, is a mistake. */
function filesByDay(files, mistakes) {
    const byDay = new Map();
    for (const file of files) {
        const day = dayInName(file.name);
        if (day !== null && !isLaterDay(day)) mistakes.error(file.name, 1, 'editionDay', { value: day });
        else if (byDay.has(day)) mistakes.error(file.name, 1, 'editionTwice', { day, other: byDay.get(day).name });
        else byDay.set(day, file);
    }
    return byDay;
}

/** Whether a text is a day like 2026-06-01, behind the first edition's. */
export function isLaterDay(text) {
    return /^\d{4}-/.test(text) && dayOf(text) > 0;
}

// ---- Which one

/** The minute from which an edition of a day is valid. */
export const sinceDay = (day) => dayOf(day) * DAY;

/** The edition in force at a minute: the last that is valid by then. */
export function inForce(editions, minute) {
    if (editions.length === 1) return editions[0];
    return editions.findLast(({ since }) => since <= minute) ?? editions[0];
}

/**
 * The editions that may settle a trip of this check-in: the one in force then and, before it, one whose window may
 * still be open.
 */
export function possibleAt(editions, minute) {
    const last = inForce(editions, minute);
    return editions.filter((edition) => edition === last || inForce(editions, minute - WINDOW) === edition);
}
