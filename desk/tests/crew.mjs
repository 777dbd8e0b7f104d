// usage: node desk/tests/crew.mjs
//
// Makes the crew of the tests, desk/tests/crew/trips.csv and members.csv: 21 members, invented, and their trips of
// October 2026 and the first days of November, under the sample's tariff. Each works early, late and at night in turn,
// with days off between; so nights reach over the month's end and over the hour that is there twice on 25 October.
import { mkdirSync, writeFileSync } from 'node:fs';
import path from 'node:path';
import { fileURLToPath } from 'node:url';
import { numbers } from './numbers.mjs';

export const CREW = path.join(path.dirname(fileURLToPath(import.meta.url)), 'crew');

const NAMES = [
    ...['Anke Reimers', 'Boris Lindner', 'Cansu Aydın', 'Detlef Krahl', 'Elif Demir', 'Frauke Tönnies', 'Gero Wessels'],
    ...['Hanna Osterkamp', 'Igor Petrow', 'Jule Hagedorn', 'Karim Benali', 'Lena Schürmann', 'Mirko Vuković'],
    ...['Nele Brüggemann', 'Ole Thomsen', 'Paula Quante', 'Rashid Haddad', 'Svenja Möllers', 'Tarek Nasser'],
    ...['Ute Kleinhans', 'Wiebke Sander'],
];

// Home, the station there, the depot where duty begins, changes on the way, minutes, and ticket levels near and far;
// where none are said, there are none.
const WAYS = [
    { home: 'Bielefeld Universität', hub: 'Bielefeld Hbf', depot: 'Münster Hbf', ride: 71 },
    { home: 'Bielefeld Sennestadt', hub: 'Bielefeld Hbf', depot: 'Paderborn Hbf', ride: 44 },
    { home: 'Paderborn Schloß Neuhaus', hub: 'Paderborn Hbf', depot: 'Hamm Hbf', ride: 48 },
    { home: 'Hamm Betriebshof', hub: 'Hamm Hbf', depot: 'Köln Hbf', via: 'Dortmund Hbf', ride: 95 },
    { home: 'Bocholt Bf', hub: 'Münster Hbf', depot: 'Rheine Bf', ride: 33 },
    { home: 'Dortmund Betriebswerk', hub: 'Dortmund Hbf', depot: 'Düsseldorf Hbf', ride: 66, levels: ['A', 'C'] },
    { home: 'Oberhausen Hbf', hub: 'Essen Hbf', depot: 'Wuppertal Hbf', ride: 52, levels: ['B', 'D'] },
    { home: 'Aachen West', hub: 'Aachen Hbf', depot: 'Düren Bf', ride: 31, levels: ['K', 'C'] },
    { home: 'Stolberg Altstadt', hub: 'Stolberg Hbf', depot: 'Aachen Hbf', ride: 17, levels: ['', 'A'] },
    { home: 'Baesweiler Setterich', hub: 'Baesweiler Reyplatz', depot: 'Köln Hbf', ride: 88 },
];

const DAYS = 34; // from 1 October on
const TURN = ['night', 'off', 'early', 'off', 'off', 'late', 'off', 'off', 'night', 'off', 'off'];
const CHANGE = 24; // the day, counted from 0, in whose first hours the clock is put back

const two = (number) => String(number).padStart(2, '0');
const dateOf = (day) => new Date(Date.UTC(2026, 9, 1 + day)).toISOString().slice(0, 10);
const clock = (minute) => `${two(Math.floor(minute / 60) % 24)}:${two(minute % 60)}`;

/** A member's trips: day, depart and arrive as they are written, and the other columns. */
function* tripsOf(member, number, below) {
    const crew = { member, below, way: { via: '', levels: ['', ''], ...WAYS[number % WAYS.length] } };
    for (let day = 0; day < DAYS; day += 1) yield* dutyOf(TURN[(day + number) % TURN.length], day, crew);
}

const STARTS = { early: 245, late: 775, night: 1265 };
const HOURS = { early: 8 * 60 + 20, late: 7 * 60 + 50, night: 7 * 60 + 10 };

function* dutyOf(duty, day, crew) {
    if (duty === 'off') return yield* offDuty(day, crew);
    const { below } = crew;
    const start = STARTS[duty] + below(40);
    const back = start + HOURS[duty] + below(25);
    yield* outward(day, start, crew);
    if (duty === 'night' && day + 1 === CHANGE) return yield* throughTheChange(crew);
    yield* homeward(day, back, crew);
}

function* outward(day, start, { member, way, below }) {
    const first = below(3) === 0 ? '1' : '';
    const bicycle = below(5) === 0 ? '1' : '';
    const near = { level: way.levels[0], bicycles: bicycle };
    yield trip(member, day, start, start + 9 + below(9), way.home, way.hub, near);
    const ride = { via: way.via, class: way.hub.startsWith('Baesweiler') ? '' : first, level: way.levels[1] };
    yield trip(member, day, start + 31, start + 31 + way.ride + below(12), way.hub, way.depot, ride);
}

function* homeward(day, start, { member, way, below }) {
    const ride = { via: way.via, level: way.levels[1] };
    yield trip(member, day, start, start + way.ride + below(12), way.depot, way.hub, ride);
    if (below(2) > 0) yield trip(member, day, start + 125, start + 139, way.hub, way.home, { level: way.levels[0] });
}

/** The way home in the night of 25 October: before the change, over it, and in the hour's second turn. */
function* throughTheChange({ member, way, below }) {
    const [date, rest] = [dateOf(CHANGE), { level: way.levels[0] }];
    const near = [way.hub, way.home];
    yield row(member, date, '00:50', `02:${two(20 + below(10))}+02:00`, way.depot, way.hub, { level: way.levels[1] });
    yield row(member, date, '02:50', '02:05', ...near, rest); // a quarter of an hour
    yield row(member, date, '02:20+01:00', `02:${two(40 + below(10))}+01:00`, ...near.reverse(), rest);
}

/** Days off: now and then an errand out and back, or a trip with the family. */
function* offDuty(day, { member, way, below }) {
    const what = below(30);
    const start = 600 + below(240);
    const level = way.levels[1];
    if (what === 0) yield trip(member, day, start, start + 150, way.hub, way.hub, { via: way.depot, level });
    if (what !== 1) return;
    const family = { adults: '1', children: String(1 + below(2)), level };
    yield trip(member, day, start, start + way.ride + 5, way.hub, way.depot, family);
    yield trip(member, day, start + 240, start + 240 + way.ride + 5, way.depot, way.hub, family);
}

function trip(member, day, start, end, from, to, rest) {
    return row(member, dateOf(day + Math.floor(start / 1440)), clock(start), clock(end), from, to, rest);
}

function row(member, date, depart, arrive, from, to, { via = '', level = '', adults = '', children = '', ...rest }) {
    const { class: travelClass = '', bicycles = '' } = rest;
    return [member, date, depart, arrive, from, to, via, travelClass, level, adults, children, bicycles];
}

/** What is refused: a ride that was written down twice with other times, and a tap in and straight out again. */
function slips() {
    return [
        row('Ole Thomsen', '2026-10-13', '18:00', '18:02', 'Münster Hbf', 'Münster Hbf', {}),
        row('Wiebke Sander', '2026-10-20', '16:00', '16:40', 'Bielefeld Hbf', 'Bielefeld Universität', {}),
        row('Wiebke Sander', '2026-10-20', '16:30', '16:50', 'Bielefeld Hbf', 'Bielefeld Universität', {}),
    ];
}

const HEADER = 'member;date;depart;arrive;from;to;via;class;level;adults;children;bicycles';

/** Both files' texts, the trips by date and time, as a list is kept. */
export function crewFiles() {
    const rows = [...NAMES.flatMap((member, i) => [...tripsOf(member, i, numbers(i + 1))]), ...slips()];
    const key = ([member, date, depart]) => `${date} ${depart} ${member}`;
    rows.sort((one, other) => (key(one) < key(other) ? -1 : 1));
    const members = NAMES.map((name, i) => `${two(i)}${4711 + 37 * i};${name};`);
    return {
        'trips.csv': `${[HEADER, ...rows.map((cells) => cells.join(';'))].join('\n')}\n`,
        'members.csv': `${['number;name;email', ...members].join('\n')}\n`,
    };
}

if (process.argv[1] === fileURLToPath(import.meta.url)) {
    mkdirSync(CREW, { recursive: true });
    for (const [name, text] of Object.entries(crewFiles())) writeFileSync(path.join(CREW, name), text);
}
