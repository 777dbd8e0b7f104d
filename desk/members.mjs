// Who is who, from the optional members.csv: personnel numbers, for the wages, and which names there are.
import { readTable } from './csv.mjs';
import { noteTaken } from './fields.mjs';
import { nearest, personFinder, tidy } from './names.mjs';

/** The columns of members.csv, and whether each has to be there. */
export const MEMBER_COLUMNS = { number: true, name: true, email: false };

/** The members by name, name → {number, email}; null where there is no such file, or none that can be read. */
export function readMembers(file, mistakes) {
    const rows = file.bytes === null ? null : readTable(file, MEMBER_COLUMNS, mistakes);
    if (rows === null) return null;
    const [numbers, names] = [new Map(), new Map()];
    return new Map(
        rows.map((row) => {
            const note = (key, values) => mistakes.error(file.name, row.line, key, values);
            const [number, name, email] = ['number', 'name', 'email'].map((column) => tidy(row[column]));
            noteTaken(numbers, 'number', number, row.line, note);
            noteTaken(names, 'name', name, row.line, note);
            return [name, { number, email }];
        }),
    );
}

const MOST_SUGGESTIONS = 100; // by letters: looking for them takes time, and more unknown names are another crew's

/** Every member of the trips has to be among the members: told once a name, at its first trip. */
export function checkMembers(trips, members, { name }, mistakes) {
    const unknown = new Map();
    for (const trip of trips) {
        if (members.has(trip.member)) continue;
        const known = unknown.get(trip.member);
        unknown.set(trip.member, { first: known?.first ?? trip, count: (known?.count ?? 0) + 1 });
    }
    const names = [...members.keys()];
    const finder = personFinder();
    for (const own of names) finder.add(own);
    for (const [value, { first, count }] of unknown) {
        const near = finder.near(value) ?? (unknown.size <= MOST_SUGGESTIONS ? nearest(value, names) : null);
        mistakes.error(first.file, first.line, 'noMember', { value, count, near, members: name });
    }
}
