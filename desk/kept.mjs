// The trips that closed books keep, each with what it was charged, and which of today's trips are among them. A stop
// stands there by the word that trips.csv would have for it, and the file says beside which id the word has in which
// edition.
import { monthOf } from './clock.mjs';
import { directory } from './tariff.mjs';
import { isoOf, stopsIn } from './trips.mjs';

/** Of each stop the word that names it and no other: its name or, where that leads elsewhere too, its id. */
export function stopWords(stops) {
    const find = directory(stops);
    return stops.map(({ id, name }) => (find(name).length === 1 && find(name)[0].id === id ? name : id));
}

// ---- Writing

/** Settled trips as lines of the file. What is left out: the first edition, class 2, no level, nobody along. */
export function keptLines(entries, words) {
    return entries.map((entry) => {
        const { in: from, out, party } = sameAsKept(entry);
        return JSON.stringify({
            in: from,
            out,
            stops: [entry.from, ...entry.via, entry.to].map((stop) => words[entry.edition - 1][stop]),
            ...(entry.edition === 1 ? {} : { edition: entry.edition }),
            ...(entry.class === 2 ? {} : { class: entry.class }),
            ...(entry.level === null ? {} : { level: entry.level }),
            ...(party.every((number) => number === 0) ? {} : { party }),
            ...(entry.accepted ? { cents: entry.cents } : { refused: entry.refusal.number }),
        });
    });
}

// ---- Reading

const NOBODY = [0, 0, 0];
const TIME = /^20\d\d-\d\d-\d\dT\d\d:\d\d[+-]\d\d:\d\d$/;

/** Whether all of a member's trips are such; `stopIds` of their edition has the id of each stop's word. */
export function areKept(trips, editions) {
    return trips.every((trip) => hasRide(trip, editions[(trip.edition ?? 1) - 1].stopIds) && hasOutcome(trip));
}

function hasRide({ in: from, out, stops, class: travelClass = 2, level = null, party = NOBODY }, stopIds) {
    const isStop = (word) => Object.hasOwn(stopIds, word) && typeof stopIds[word] === 'string';
    const ride = [1, 2].includes(travelClass) && [null, 'K', 'A', 'B', 'C', 'D'].includes(level);
    const along = party.length === 3 && party.every(isCount);
    return TIME.test(from) && TIME.test(out) && stops.length >= 2 && stops.every(isStop) && ride && along;
}

/** Of what it was charged and why it was refused there is one. */
function hasOutcome({ cents = null, refused = null }) {
    return (cents === null) !== (refused === null) && isCount(cents ?? refused);
}

const isCount = (number) => Number.isInteger(number) && number >= 0;

// ---- Today's beside them

/**
 * Today's trips beside those that books keep, member → trips: `known` are those of today's that they have, `late` those
 * that they lack, and `gone` what they keep and today's lack, member → trips. One that is there twice has to be kept
 * twice. Under which edition a trip was settled is known of the kept ones alone, so it may be the same under any.
 */
export function besideKept(trips, { trips: kept, editions: then }, editions) {
    const left = keptByKey(kept, then, editions);
    const isKept = (trip) => {
        const keys = editions.map(({ number }) => {
            return keyOf(trip.member, sameAsKept(trip), number, stopsIn(trip, number));
        });
        const key = keys.find((own) => left.get(own)?.trips.length > 0);
        return key !== undefined && left.get(key).trips.shift() !== undefined;
    };
    const [known, late, gone] = [[], [], new Map()];
    for (const trip of trips) (isKept(trip) ? known : late).push(trip);
    for (const { member, trips: own } of left.values()) {
        if (own.length > 0) gone.set(member, [...(gone.get(member) ?? []), ...own]);
    }
    return { known, late, gone };
}

/** Kept trips by what makes them the same again, each with its member. */
function keptByKey(kept, then, editions) {
    const numberOf = editions.map(({ stops }, i) => stopNumbers(stops, then[i]?.stopIds ?? {}));
    const byKey = new Map();
    for (const [member, trips] of kept) {
        for (const trip of trips) {
            const { edition = 1, stops } = trip;
            const key = keyOf(member, trip, edition, stops.map(numberOf[edition - 1] ?? (() => null)));
            if (!byKey.has(key)) byKey.set(key, { member, trips: [] });
            byKey.get(key).trips.push(trip);
        }
    }
    return byKey;
}

/** The month of a kept trip, by the clock of a zone. */
export function keptMonth({ in: from }, zone) {
    return monthOf(zone, (Date.parse(from) - FIRST_MINUTE) / 60000);
}

const FIRST_MINUTE = Date.parse('2000-01-01T00:00Z');

/** A trip's times and party as they are kept. */
function sameAsKept({ checkIn, checkOut, class: travelClass, level, party: { adults, children, bicycles } }) {
    return { in: isoOf(checkIn), out: isoOf(checkOut), class: travelClass, level, party: [adults, children, bicycles] };
}

/** What makes a trip the same again. */
function keyOf(member, { in: from, out, class: travelClass = 2, level = null, party = NOBODY }, edition, stops) {
    return [member, from, out, travelClass, level, ...party, edition, ...stops].join('\n');
}

/** The number that a kept stop has today: by its id, since names are mended, and where that is gone by its word. */
function stopNumbers(stops, stopIds) {
    const find = directory(stops);
    const byId = new Map(stops.map(({ id, index }) => [id, index]));
    return (word) => byId.get(stopIds[word]) ?? find(word)[0]?.index ?? null;
}
