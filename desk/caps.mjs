// What an area's caps come to: the day cap, for all classes raised by the first-class surcharge, for a child reduced
// (docs/RULES.md, R10.2 and R10.3). The library computes these amounts, not the desk: a trip cap is raised and reduced
// in the same steps (R8.3, R8.5, R8.6), so the price of a trip under a trip cap as high as the day cap is the cap.
import { FIRST_DAY } from './editions.mjs';
import { BOOK_BYTES } from './engine.mjs';
import { openingRecord, recordBytes } from './tariff.mjs';
import { tripBytes } from './trips.mjs';

const NO_DAY_CAP = 65535;

/** For each area null, where it has no day cap, or {adult: {second, all}, child: {second, all}}. */
export function capsOf(engine, areas) {
    return areas.map((area) => (area.dayCap === null ? null : areaCaps(engine, area)));
}

function areaCaps(engine, area) {
    const tariff = tariffWith(area);
    const [second, all] = [2, 1].map((number) => pricesOf(engine, tariff, number));
    return {
        adult: { second: second.adult, all: all.adult },
        child: { second: second.child, all: all.child },
    };
}

/** One edition: a state with one stop, no day cap, and the area's day cap as its trip cap, flat for 1,440 minutes. */
function tariffWith({ dayCap, first, child }) {
    const [base, perKm, validity] = [10000, 0, 30];
    const state = [
        ...[[1, 0], [1, 0], [2, base], [2, perKm], [2, validity], [1, first], [1, child]],
        ...[[1, 1], [2, dayCap], [2, 1440], [2, 0], [2, 0], [2, 0], [2, NO_DAY_CAP], [2, 0]],
    ];
    const factor = [[1, 1], [1, 0]];
    const stop = [[1, 0], [4, 0], [4, 0]];
    const records = [recordBytes(1, state), recordBytes(5, factor), recordBytes(2, stop)];
    return Uint8Array.from([openingRecord(FIRST_DAY), ...records].flatMap((record) => [...record]));
}

/** Three hours: six times the base price, which is the highest day cap, so that the trip cap is what counts. */
function pricesOf(engine, tariff, number) {
    const at = (hour) => ({ local: `2026-01-01T${hour}:00`, offset: '+01:00' });
    const ride = { checkIn: at(12), checkOut: at(15), from: 0, to: 0, via: [], level: null, class: number };
    const trip = tripBytes({ ...ride, party: { adults: 0, children: 1, bicycles: 0 } });
    const { statement } = engine.quote(tariff, new Uint8Array(BOOK_BYTES), trip);
    const [adult, child] = engine.read(statement, 0).fields.charges;
    return { adult: adult.cents, child: child.cents };
}
