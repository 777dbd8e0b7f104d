// Every mistake that a file can have, with its exact words.
import assert from 'node:assert/strict';
import { test } from 'node:test';
import { statementText } from '../statement.mjs';
import { reasonText } from '../words.mjs';
import { TRIPS, run, said, sample } from './support.mjs';

const GOOD = 'Anna Berg,2026-10-31,23:50,00:21,Münster Hbf,Hamm Hbf,,,,,,\n';
const trip = (line) => said(run(TRIPS + line));
const trips = (line) => trip(line).map((text) => text.replace(/^trips\.csv:2: /, ''));

test('a good trip has no mistake, and defaults are class 2, no level and nobody along', () => {
    const result = run(TRIPS + GOOD);
    assert.deepEqual(said(result), []);
    const { class: travelClass, level, party, via } = result.members[0].entries[0];
    assert.deepEqual([travelClass, level, party, via], [2, null, { adults: 0, children: 0, bicycles: 0 }, []]);
});

test('an unknown stop, with the near one, in its line', () => {
    const six = Array.from({ length: 5 }, (_, i) => GOOD.replace('2026-10-31', `2026-10-0${i + 1}`)).join('');
    assert.deepEqual(trip(`${six}Anna Berg,2026-10-31,23:50,00:21,Muenster Hbf,Hamm Hbf,,,,,,\n`), [
        "trips.csv:7: from 'Muenster Hbf': no such stop; did you mean 'Münster Hbf'?",
    ]);
    assert.deepEqual(trips('Anna Berg,2026-10-31,23:50,00:21,ms-hbf,Oldenburg,Haam Hbf|Hamm Hbf,,,,,\n'), [
        "via 'Haam Hbf': no such stop; did you mean 'Hamm Hbf'?",
        "to 'Oldenburg': no such stop",
    ]);
});

test('the same in German', () => {
    const result = run(`${TRIPS}Anna Berg,2026-10-31,23:50,00:21,Muenster Hbf,Hamm Hbf,,,E,,,\n`, { language: 'de' });
    assert.deepEqual(said(result), [
        "trips.csv:2: from 'Muenster Hbf': keine solche Haltestelle; war 'Münster Hbf' gemeint?",
        "trips.csv:2: level 'E': keine solche Preisstufe; es gibt K, A, B, C und D, oder leer",
    ]);
});

test('a name that several stops have', () => {
    const stops = `${sample('stops.csv')}xx;Hamm Hbf;Westfalen;1;1\n`;
    assert.deepEqual(said(run(TRIPS + GOOD, { stops })), [
        "trips.csv:2: to 'Hamm Hbf': several stops have this name; write ham-hbf or xx",
    ]);
    assert.deepEqual(said(run(TRIPS + GOOD.replace('Hamm Hbf', 'xx'), { stops })), []);
});

test('an unknown ticket level or class', () => {
    assert.deepEqual(trips('Anna Berg,2026-10-31,23:50,00:21,Münster Hbf,Hamm Hbf,,3,E,,,\n'), [
        "class '3': allowed is 1, 2",
        "level 'E': no such ticket level; there are K, A, B, C and D, or empty",
    ]);
});

test('an unknown area, or level of an area', () => {
    const city = sample('areas.csv').replace('city;Westfalen;', 'city;Westphalen;');
    const areas = city.replace('VRR;VRR;1;region', 'VRR;VRR;1;county');
    assert.deepEqual(said(run(TRIPS + GOOD, { areas })), [
        "areas.csv:4: within 'Westphalen': no such area; did you mean 'Westfalen'?",
        "areas.csv:8: level 'county': no such level; there are state, region and city",
    ]);
    const stops = sample('stops.csv').replace(';Hamm;', ';Hamn;');
    assert.deepEqual(
        said(run(TRIPS + GOOD, { stops })),
        ["stops.csv:11: area 'Hamn': no such area; did you mean 'Hamm'?"],
    );
});

test('an id twice', () => {
    const stops = sample('stops.csv').replace('rhe-bf;', 'ms-hbf;');
    assert.deepEqual(said(run(TRIPS + GOOD, { stops })), ["stops.csv:14: id 'ms-hbf': taken already in line 2"]);
    const areas = sample('areas.csv').replace('PB;Paderborn', 'BI;Paderborn');
    assert.deepEqual(said(run(TRIPS + GOOD, { areas })), ["areas.csv:5: id 'BI': taken already in line 4"]);
    const hamm = sample('areas.csv').replace('HAM;Hamm', 'HAM;VRR');
    assert.ok(said(run(TRIPS + GOOD, { areas: hamm })).includes("areas.csv:8: name 'VRR': taken already in line 6"));
});

test('bad dates and times', () => {
    assert.deepEqual(trips('Anna Berg,2026-02-29,24:50,48:00,Münster Hbf,Hamm Hbf,,,,,,\n'), [
        "date '2026-02-29': not a date of the years 2000 to 2099; write it like 2026-10-31 or 31.10.2026",
        "depart '24:50': not a clock time from 00:00 to 23:59",
        "arrive '48:00': not a clock time from 00:00 to 47:59",
    ]);
    assert.deepEqual(trips('Anna Berg,31.10.2026,12.3,half,Münster Hbf,Hamm Hbf,,,,,,\n'), [
        "depart '12.3': not a clock time from 00:00 to 23:59",
        "arrive 'half': not a clock time from 00:00 to 47:59",
    ]);
});

test('missing, doubled, misspelt and unknown columns', () => {
    const head = (line) => said(run(line + GOOD));
    assert.deepEqual(head('member,date,depart,from,to\n'), ["trips.csv:1: the column 'arrive' is missing"]);
    assert.deepEqual(head('member,date,depart,arrive,from,to,via,class,level,adults,children,bicyles\n'), [
        "trips.csv:1: column 'bicyles': no such column; did you mean 'bicycles'?",
    ]);
    assert.deepEqual(head('member,date,depart,arrive,from,to,via,class,level,adults,children,via\n'), [
        "trips.csv:1: the column 'via' is there twice",
    ]);
    assert.deepEqual(head('member,date,depart,arrive,from,to,via,class,level,adults,children,remark\n'), [
        "trips.csv:1: warning: column 'remark': unknown, ignored",
    ]);
});

test('a wrong encoding, an empty file, a missing one, an open quote, a field too many', () => {
    const latin = new Uint8Array(Buffer.from(TRIPS + GOOD, 'latin1'));
    const good = run(latin);
    assert.deepEqual(said(good), ['trips.csv:2: warning: not UTF-8; read as Windows-1252: are the umlauts right?']);
    assert.equal(good.members[0].entries.length, 1);
    const mixed = Buffer.concat([Buffer.from(TRIPS + GOOD), Buffer.from(GOOD, 'latin1')]);
    assert.deepEqual(
        said(run(new Uint8Array(mixed))),
        ["trips.csv:3: UTF-8 in parts only; please save the file as 'CSV UTF-8'"],
    );
    assert.deepEqual(
        said(run(`${TRIPS}${GOOD}\0`)),
        ["trips.csv:3: has zero bytes, which no text has; please save the file as 'CSV UTF-8'"],
    );
    assert.deepEqual(said(run('')), ['trips.csv:1: the file is empty; its first line has to name the columns']);
    assert.deepEqual(said(run(undefined)), ['trips.csv:1: the file is missing']);
    assert.deepEqual(
        trip('"Anna,2026-10-31\n'),
        ['trips.csv:2: a quotation mark opens here and is not closed, or text follows it'],
    );
    assert.deepEqual(trips('Berg, Anna,2026-10-31,23:50,00:21,Münster Hbf,Hamm Hbf,,,,,,\n'), [
        '13 fields instead of 12 as in the header; a comma within a field needs quotation marks',
    ]);
});

test('numbers that are none', () => {
    assert.deepEqual(trips('Anna Berg,2026-10-31,23:50,00:21,Münster Hbf,Hamm Hbf,,,,two,-1,11\n'), [
        "adults 'two': not a whole number from 0 to 10",
        "children '-1': not a whole number from 0 to 10",
        "bicycles '11': not a whole number from 0 to 10",
    ]);
    const areas = sample('areas.csv').replace('1,40;0,27;360', '1.4o;0,275;20').replace('25,00;3,00', '601,00;3');
    assert.deepEqual(said(run(TRIPS + GOOD, { areas })), [
        "areas.csv:3: base '1.4o': not an amount in euros from 0.00 to 100.00",
        "areas.csv:3: per_km '0,275': not an amount in euros from 0.00 to 10.00",
        "areas.csv:3: valid_min '20': not a whole number from 30 to 1440",
        "areas.csv:3: day_cap '601,00': not an amount in euros from 0.00 to 600.00",
    ]);
    const stops = sample('stops.csv').replace('406238;757091', '406238.5;5757091');
    assert.deepEqual(said(run(TRIPS + GOOD, { stops })), [
        "stops.csv:2: x_m '406238.5': not a whole number from 0 to 1000000",
        "stops.csv:2: y_m '5757091': not a whole number from 0 to 1000000",
    ]);
});

test('fields that must not be empty', () => {
    assert.deepEqual(trips(' ,,,,,, ,x,,,,\n'), [
        ...['member', 'date', 'depart', 'arrive', 'from', 'to'].map((column) => `${column} is empty`),
        "class 'x': allowed is 1, 2",
    ]);
});

test('the hour that is there twice, and the one that never was', () => {
    assert.deepEqual(trips('Anna Berg,2026-10-25,01:30,02:50,Münster Hbf,Hamm Hbf,,,,,,\n'), [
        "arrive '02:50': this time comes twice in this night; " +
            'write it as 02:50+02:00 (summer time) or 02:50+01:00 (winter time)',
    ]);
    assert.deepEqual(trips('Anna Berg,2026-03-29,02:30,03:10,Münster Hbf,Hamm Hbf,,,,,,\n'), [
        "depart '02:30': this time did not exist on this day; the clock went forward",
    ]);
    assert.deepEqual(trips('Anna Berg,2026-10-31,23:50+02:00,00:21,Münster Hbf,Hamm Hbf,,,,,,\n'), [
        "depart '23:50+02:00': the clock was +01:00 ahead of UTC then",
    ]);
    assert.deepEqual(trips('Anna Berg,2026-10-25,02:50+01:00,02:55+02:00,Münster Hbf,Hamm Hbf,,,,,,\n'), [
        "arrive '02:55+02:00': this is before the departure",
    ]);
});

test('overlapping trips are a warning that names the other line, and the later one is refused', () => {
    const result = run(`${TRIPS}Anna Berg,2026-10-05,08:00,09:00,Münster Hbf,Hamm Hbf,,,,,,
Cem,2026-10-05,08:30,09:30,Münster Hbf,Hamm Hbf,,,,,,
Anna Berg,2026-10-05,08:59,09:30,Hamm Hbf,Münster Hbf,,,,,,
Anna Berg,2026-10-05,09:00,09:40,Hamm Hbf,Münster Hbf,,,,,,
`);
    assert.deepEqual(said(result), ['trips.csv:4: warning: overlaps the trip in line 2; refused (10)']);
    assert.deepEqual(
        result.members[0].entries.map(({ line, accepted }) => [line, accepted]),
        [[2, true], [4, false], [5, true]],
    );
    assert.equal(result.refused, 1);
});

test('other refusals are warnings in words', () => {
    const [one] = trips('Anna Berg,2026-10-31,10:00,34:01,Münster Hbf,Hamm Hbf,,,,,,\n');
    assert.match(one, /^warning: refused \(9\): .*24 hours/);
});

test('refusal 6 says which of its causes it is: the town that has no first class', () => {
    const first = 'Anna Berg,2026-10-31,10:00,10:20,Stolberg Hbf,Stolberg Altstadt,,1,,,,\n';
    assert.deepEqual(trips(first), ['warning: refused (6): There is no first class in Stolberg.']);
    const german = run(TRIPS + first, { language: 'de' });
    assert.deepEqual(said(german), ['trips.csv:2: Warnung: wird abgelehnt (6): In Stolberg gibt es keine 1. Klasse.']);
    const statement = statementText(german.members[0], german, 'de').replace(/\s+/g, ' ');
    assert.match(statement, /Abgelehnt: In Stolberg gibt es keine 1\. Klasse\. \(Zeile 2 der Fahrten\)/);
    const { editions } = german.tariff;
    const trip = { ...german.members[0].entries[0], class: 2 };
    const party = { ...trip.party, children: 11 };
    const reasons = [{ class: 3 }, { level: 'E' }, { party }, { via: Array(31).fill(0) }];
    assert.deepEqual(reasons.map((change) => reasonText({ ...trip, ...change }, editions, 'en')), [
        'There are only first and second class.',
        'There is no such ticket level.',
        'No more than 10 adults, children or bicycles can be taken along.',
        'A trip has 2 to 32 stops.',
    ]);
});

test('too many stops', () => {
    const via = Array(31).fill('Hamm Hbf').join('|');
    assert.deepEqual(trips(`Anna Berg,2026-10-31,10:00,11:00,Münster Hbf,Hamm Hbf,${via},,,,,\n`), [
        'via: 33 stops with the first and the last; more than 32 are not allowed',
    ]);
});

test('two spellings of a member', () => {
    const result = run(TRIPS + GOOD + GOOD.replace('Anna Berg', 'anna  berg').replace('10-31', '10-30'));
    assert.deepEqual(
        said(result),
        ["trips.csv:3: warning: member 'anna berg': the same person as 'Anna Berg' in line 2? They count as two"],
    );
    assert.equal(result.members.length, 2);
});

test('mistakes of all files are told at once, and nothing is priced then', () => {
    const areas = sample('areas.csv').replace('1,40;0,27;360', 'x;0,27;360');
    const stops = sample('stops.csv').replace('406238;757091', 'y;757091');
    const result = run(`${TRIPS}Anna Berg,2026-10-32,23:50,00:21,Münster Hbf,Ham Hbf,,,,,,\n${GOOD}`, { areas, stops });
    assert.deepEqual(
        said(result).map((line) => line.split(' ')[0]),
        ['areas.csv:3:', 'stops.csv:2:', 'trips.csv:2:', 'trips.csv:2:'],
    );
    assert.deepEqual([result.members, result.wages, result.charges, result.errors], [[], [], [], 4]);
});

test('of more than 1,000 errors the others are only counted, and warnings by themselves', () => {
    const result = run(TRIPS + GOOD.replace('2026-10-31', '2026-10-32').repeat(1500) + GOOD.repeat(1200));
    assert.deepEqual([result.errors, result.warnings, result.mistakes.length], [1500, 1199, 2002]);
    const lines = said(result);
    assert.equal(lines[1000], 'trips.csv:1002: and 500 more errors in this file, not listed');
    assert.equal(lines[2001], 'trips.csv:2503: warning: and 199 more warnings in this file, not listed');
    assert.deepEqual(result.members, []);
    const german = said(run(TRIPS + 'x\n'.repeat(1002), { language: 'de' }));
    assert.equal(german.at(-1), 'trips.csv:1002: und 2 weitere Fehler in dieser Datei, nicht einzeln genannt');
    const clean = run(TRIPS + GOOD.repeat(1200)); // all warnings, told and counted, and yet the first is priced
    assert.deepEqual([clean.errors, clean.wages[0].trips], [0, 1]);
});
