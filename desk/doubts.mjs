// What is priced as it stands and may yet be a slip: trips are looked at by themselves and beside each other, and what
// is found is told as warnings.
import { DAY } from './clock.mjs';
import { personFinder } from './names.mjs';
import { stopsKey } from './trips.mjs';

const LONG_MINUTES = 360;
const NEAR_DAYS = 31;

/** Where a row stands, for whoever names it beside another; the file is named where there are several. */
export function placeOf({ file, line }, several) {
    return several ? { file, line } : { line };
}

/** Looks at all trips. `members` has each one's in order. */
export function warnOfSlips({ several, mistakes }, trips, members) {
    warnOfLong(trips, mistakes);
    warnOfYears(trips, mistakes);
    for (const own of members.values()) warnOfTwins(own, several, mistakes);
}

// ---- A trip by itself

/** An arrival that was typed wrong is likely the next day's. Trips of more than 24 hours are refused anyway. */
function warnOfLong(trips, mistakes) {
    for (const { file, line, checkIn, checkOut } of trips) {
        const minutes = checkOut.minute - checkIn.minute;
        if (minutes > LONG_MINUTES && minutes <= DAY) mistakes.warning(file, line, 'longRide', { minutes });
    }
}

// ---- Years

/** Tells of trips in a year of which there is only one day, far from all others: so New Year's night is none. */
function warnOfYears(trips, mistakes) {
    const months = new Set(trips.map(({ month }) => month));
    if (new Set([...months].map((month) => month.slice(0, 4))).size < 2) return;
    const days = new Map(); // year → its only day, or null where it has several
    for (const { checkIn } of trips) {
        const day = checkIn.local.slice(0, 10);
        const year = day.slice(0, 4);
        days.set(year, days.has(year) && days.get(year) !== day ? null : day);
    }
    for (const [year, day] of days) if (day !== null) warnOfYear(trips, year, mistakes);
}

function warnOfYear(trips, year, mistakes) {
    const isOf = ({ checkIn }) => checkIn.local.startsWith(year);
    const own = trips.filter(isOf);
    const near = ({ checkIn }) => Math.abs(checkIn.minute - own[0].checkIn.minute) <= NEAR_DAYS * DAY;
    if (trips.some((trip) => !isOf(trip) && near(trip))) return;
    for (const { file, line } of own) mistakes.warning(file, line, 'oddYear', { year });
}

// ---- Trips that are the same

/** Tells of every trip of a member that stands in the files twice. Those with one check-in stand side by side. */
function warnOfTwins(trips, several, mistakes) {
    for (let at = 0; at < trips.length; ) {
        const end = endOfMinute(trips, at);
        if (end - at > 1) warnAmong(trips.slice(at, end), several, mistakes);
        at = end;
    }
}

function endOfMinute(trips, at) {
    let end = at + 1;
    while (end < trips.length && trips[end].checkIn.minute === trips[at].checkIn.minute) end += 1;
    return end;
}

function warnAmong(trips, several, mistakes) {
    const firsts = new Map();
    for (const trip of trips) {
        const key = keyOf(trip);
        if (firsts.has(key)) mistakes.warning(trip.file, trip.line, 'tripTwice', placeOf(firsts.get(key), several));
        else firsts.set(key, trip);
    }
}

function keyOf(trip) {
    const { checkOut, class: travelClass, level, party: { adults, children, bicycles } } = trip;
    return [checkOut.minute, stopsKey(trip), travelClass, level, adults, children, bicycles].join();
}

// ---- Members

/** Two spellings of one name would be two members, each with caps of their own: told once a name. */
export function warnOfNearMembers({ several, mistakes }, trips) {
    const finder = personFinder();
    const firsts = new Map();
    for (const trip of trips) {
        const { file, line, member } = trip;
        if (firsts.has(member)) continue;
        firsts.set(member, trip);
        const near = finder.near(member);
        finder.add(member);
        if (near === null) continue;
        const values = { value: member, near, ...placeOf(firsts.get(near), several) };
        mistakes.warning(file, line, 'nearMembers', values);
    }
}

/** A member spelt otherwise than in the books would go on from a fresh one: told once a name that no roster settles. */
export function warnOfNearBooks({ mistakes, roster }, kept, trips) {
    const finder = personFinder();
    for (const name of kept) if (!roster?.has(name)) finder.add(name);
    const seen = new Set(kept);
    for (const { file, member, line } of trips) {
        if (seen.has(member)) continue;
        seen.add(member);
        const near = finder.near(member);
        if (near !== null) mistakes.warning(file, line, 'nearBook', { value: member, near });
    }
}
