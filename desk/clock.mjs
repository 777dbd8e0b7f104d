// The clock on the wall and the minutes that are counted: minute 0 is 2000-01-01 00:00 UTC, as in the library.
// The offset of a time zone comes from the machine's own tables (Intl), asked once a day that occurs.
import { remembered } from './remembered.mjs';

export const DAY = 1440; // minutes
const EPOCH = Date.UTC(2000, 0, 1);

/**
 * The days from 2000-01-01 to a date of 2000 to 2099, written 2026-10-31, 31.10.2026 or 31.10.26; null for any other
 * text.
 */
export function dayOf(text) {
    const iso = /^(\d{4})-(\d{2})-(\d{2})$/.exec(text);
    const german = /^(\d{1,2})\.(\d{1,2})\.((?:20)?\d{2})$/.exec(text);
    if (!iso && !german) return null;
    const written = iso ? [iso[1], iso[2], iso[3]] : [german[3].padStart(4, '20'), german[2], german[1]];
    const [year, month, day] = written.map(Number);
    const date = new Date(Date.UTC(year, month - 1, day));
    const same = date.getUTCFullYear() === year && date.getUTCMonth() === month - 1 && date.getUTCDate() === day;
    return same && year >= 2000 && year <= 2099 ? (date.getTime() - EPOCH) / (DAY * 60000) : null;
}

/**
 * A clock time to 47:59, written 5:08, 05:08:00, 5.08 or 0508: minutes since its day began, and the offset in minutes
 * if one is written; or null.
 */
export function timeOf(text) {
    const found = /^(\d{1,2})(?::|\.|(?=\d\d(?:\D|$)))([0-5]\d)(?::00)?(?:([+-])(\d{2}):([0-5]\d))?$/.exec(text);
    if (!found || Number(found[1]) > 47) return null;
    const ahead = found[3] ? (Number(found[4]) * 60 + Number(found[5])) * (found[3] === '-' ? -1 : 1) : null;
    return { minutes: Number(found[1]) * 60 + Number(found[2]), offset: ahead };
}

/** The clock of a zone by name. */
export const clockOf = remembered(makeClock);

function makeClock(zone) {
    const numeric = { year: 'numeric', month: 'numeric', day: 'numeric', hour: 'numeric', minute: 'numeric' };
    const format = new Intl.DateTimeFormat('en', { ...numeric, timeZone: zone, hourCycle: 'h23', calendar: 'gregory' });
    const asked = (minute) => {
        const shown = {};
        for (const { type, value } of format.formatToParts(EPOCH + minute * 60000)) shown[type] = Number(value);
        const wall = Date.UTC(shown.year, shown.month - 1, shown.day, shown.hour, shown.minute);
        return (wall - EPOCH) / 60000 - minute;
    };
    const offsetsIn = remembered((day) => offsetsOf(asked, day * DAY));
    const offsetAt = (minute) => {
        const { before, behind, change } = offsetsIn(Math.floor(minute / DAY));
        return minute < change ? before : behind;
    };
    // the offset on a day, on that before it and on two behind; null where the clock is changed meanwhile
    const steadyOffset = remembered((day) => {
        const near = [-1, 0, 1, 2].map((by) => offsetsIn(day + by));
        const offset = near[0].before;
        return near.every(({ before, behind }) => before === offset && behind === offset) ? offset : null;
    });
    return { zone, offsetAt, steadyOffset };
}

/** The offsets of a day of UTC, in which the clock is changed once at most, and the first minute of the later one. */
function offsetsOf(asked, start) {
    const before = asked(start);
    const behind = asked(start + DAY - 1);
    let [low, high] = [start, start + DAY - 1];
    while (before !== behind && high - low > 1) {
        const middle = Math.floor((low + high) / 2);
        if (asked(middle) === before) low = middle;
        else high = middle;
    }
    return { before, behind, change: before === behind ? Infinity : high };
}

/** The moments at which the clock shows this day and minute: one, none in the March hour, two in the October one. */
export function momentsOf(clock, day, minuteOfDay) {
    const wall = day * DAY + minuteOfDay;
    const offsets = new Set([clock.offsetAt(wall - DAY), clock.offsetAt(wall + DAY)]);
    return [...offsets]
        .map((offset) => ({ minute: wall - offset, offset }))
        .filter(({ minute, offset }) => clock.offsetAt(minute) === offset)
        .sort((one, other) => one.minute - other.minute);
}

/**
 * Check-in and check-out of a trip from what is written: `day` of the departure, and the two clock times. An arrival
 * earlier than the departure is the next day's. Of an hour that is there twice, that reading counts which is the only
 * one in which the trip does not end before it began. Else `faults`: which column is amiss, and how.
 */
export function tripTimes(clock, day, depart, arrive) {
    const offset = clock.steadyOffset(day);
    const plain = offset !== null && depart.offset === null && arrive.offset === null;
    return plain ? plainTimes(day * DAY - offset, offset, depart, arrive) : changingTimes(clock, day, depart, arrive);
}

/** Where the clock is not changed and no offset is written: of a day that begins at this minute. */
function plainTimes(start, offset, depart, arrive) {
    const end = start + arrive.minutes + (arrive.minutes < depart.minutes ? DAY : 0);
    return { checkIn: { minute: start + depart.minutes, offset }, checkOut: { minute: end, offset } };
}

function changingTimes(clock, day, depart, arrive) {
    const starts = written(momentsOf(clock, day, depart.minutes), depart);
    if (starts.fault) return { faults: [{ column: 'depart', ...starts }] };
    const late = arrive.minutes >= DAY;
    const same = late ? { moments: [] } : written(momentsOf(clock, day, arrive.minutes), arrive);
    const readings = pairs(starts.moments, same.moments ?? []);
    if (readings.length > 0) return onlyOne(readings);
    if (!late && arrive.minutes >= depart.minutes) {
        return same.fault ? { faults: [{ column: 'arrive', ...same }] } : onlyOne([]);
    }
    const next = written(momentsOf(clock, day + 1, arrive.minutes % DAY), arrive);
    if (next.fault) return { faults: [{ column: 'arrive', ...next }] };
    return onlyOne(pairs(starts.moments, next.moments));
}

/** Those of the moments that have the offset that is written, if one is. */
function written(moments, time) {
    if (moments.length === 0) return { fault: 'never' };
    const fitting = time.offset === null ? moments : moments.filter(({ offset }) => offset === time.offset);
    return fitting.length > 0 ? { moments: fitting } : { fault: 'offset', offsets: [moments[0].offset] };
}

function pairs(starts, ends) {
    return starts.flatMap((start) => ends.filter((end) => end.minute >= start.minute).map((end) => [start, end]));
}

function onlyOne(readings) {
    if (readings.length === 0) return { faults: [{ column: 'arrive', fault: 'before' }] };
    if (readings.length === 1) return { checkIn: readings[0][0], checkOut: readings[0][1] };
    const faults = ['depart', 'arrive'].map((column, at) => {
        return { column, fault: 'twice', offsets: [...new Set(readings.map((reading) => reading[at].offset))] };
    });
    return { faults: faults.filter(({ offsets }) => offsets.length > 1) };
}

/** A day as '2026-10-31', and its month, '2026-10'. */
const wordsOf = remembered((day) => {
    const date = new Date(EPOCH + day * DAY * 60000).toISOString().slice(0, 10);
    return { date, month: date.slice(0, 7) };
});

/** A number in two figures at least: '05'. */
export const two = (number) => String(number).padStart(2, '0');

const CLOCK_TIMES = Array.from({ length: DAY }, (_, minute) => `T${two(Math.floor(minute / 60))}:${two(minute % 60)}`);

/** A minute of the wall as '2026-10-31T23:50'. */
function wallText(wall) {
    const day = Math.floor(wall / DAY);
    return wordsOf(day).date + CLOCK_TIMES[wall - day * DAY];
}

/** What the clock shows at a minute: '2026-10-31T23:50'. */
export function localOf(clock, minute) {
    return wallText(minute + clock.offsetAt(minute));
}

/** A minute with what the clock shows then, `offset` ahead of UTC. */
export function momentOf({ minute, offset }) {
    return { minute, local: wallText(minute + offset), offset: offsetText(offset) };
}

/** The month that a minute belongs to in a zone, '2026-10': the one place that decides to whose wages a trip goes. */
export function monthOf(zone, minute) {
    return wordsOf(Math.floor((minute + clockOf(zone).offsetAt(minute)) / DAY)).month;
}

/** Today's date in a zone, '2026-11-03', by the machine's clock. */
export function todayIn(zone) {
    return localOf(clockOf(zone), Math.floor((Date.now() - EPOCH) / 60000)).slice(0, 10);
}

/** An offset in minutes as it is written: '+01:00'. */
export const offsetText = remembered((offset) => {
    const ahead = Math.abs(offset);
    return `${offset < 0 ? '-' : '+'}${two(Math.floor(ahead / 60))}:${two(ahead % 60)}`;
});
