// Corrections: what stands in a line of the trips instead, what all says of it, and what it changes.
import assert from 'node:assert/strict';
import { test } from 'node:test';
import { booksText } from '../books.mjs';
import { differencesText } from '../differences.mjs';
import { statementText } from '../statement.mjs';
import { chargesText, wagesText } from '../wages.mjs';
import { changesOf, corrected, file, rowsText as text, table } from './corrected.mjs';
import { TRIPS, numbers, run, said, sample } from './support.mjs';

const ROWS = sample('trips.csv').trimEnd().split('\n');
const SAMPLE = ROWS.join('\n');
const OUT = 'Anna Berg,2026-10-05,08:00,09:15,Münster Hbf,Bielefeld Hbf,,,,,,\n';
const BACK = 'Anna Berg,2026-10-05,17:00,18:15,Bielefeld Hbf,Münster Hbf,,,,,,\n';
const LATER = 'Anna Berg,2026-10-06,08:30,09:45,Münster Hbf,Bielefeld Hbf,,,,,,\n';

/** The sample with a line in the place of another, or without it. */
const replaced = (line, ...instead) => ROWS.toSpliced(line - 1, 1, ...instead).join('\n');

// ---- Corrected trips

test('a corrected line is priced as if it stood so: empty columns are as they were', () => {
    const fields = ROWS[5].split(';'); // line 6 of the sample
    const changes = { 2: '04:01', 3: '04:55', 7: '1', 9: '2' };
    const own = ['depart', 'arrive', 'class', 'adults'];
    const result = run(SAMPLE, { corrections: `line;${own.join(';')}\n6;${Object.values(changes).join(';')}\n` });
    const due = run(replaced(6, fields.map((field, i) => changes[i] ?? field).join(';')));
    assert.deepEqual(said(result), said(due));
    assert.deepEqual(result.wages, due.wages);
    assert.notDeepEqual(result.wages, run(SAMPLE).wages);
    const { period: month } = due.wages[0];
    assert.equal(
        booksText(run(SAMPLE, { period: month, corrections: 'line,class\n6,1\n' })),
        booksText(run(replaced(6, fields.with(7, '1').join(';')), { period: month })),
    );
});

test('a cancelled line is priced as if it were not there', () => {
    const result = run(SAMPLE, { corrections: 'Zeile;streichen\n6;ja\n7;\n'.replace('7;\n', '8;YES\n') });
    assert.deepEqual(result.wages, run(ROWS.filter((_, i) => i !== 5 && i !== 7).join('\n')).wages);
    assert.deepEqual(run(SAMPLE, { corrections: 'line,cancel\n' }).wages, run(SAMPLE).wages);
    assert.equal(run(SAMPLE, { corrections: 'line,cancel\n' }).corrections, null);
});

test('of several files the one that is named; of one file none need be', () => {
    const files = [file('a.csv', TRIPS + OUT), file('b.csv', TRIPS + BACK)];
    const left = run(files, { corrections: 'file,line,cancel\nb.csv,2,yes\n' });
    assert.deepEqual(left.members[0].entries.map((entry) => entry.file), ['a.csv']);
    const rows = [',2,yes', 'b.cs,2,yes', 'nowhere at all,2,yes', 'b.csv,3,yes'];
    const wrong = run(files, { corrections: ['file,line,cancel', ...rows].join('\n') });
    assert.deepEqual(said(wrong), [
        'corrections.csv:2: file is empty, and trips stand in several files: a.csv, b.csv',
        "corrections.csv:3: file 'b.cs': no such file of trips; did you mean 'b.csv'?",
        "corrections.csv:4: file 'nowhere at all': no such file of trips",
        "corrections.csv:5: line '3': b.csv has no trip there",
    ]);
    assert.deepEqual(wrong.wages, []);
    assert.deepEqual(said(run(TRIPS + OUT, { corrections: 'file,line,cancel\ntrips.csv,2,yes\n' })), []);
});

test('mistakes stand beside the line of the correction, in both languages', () => {
    const rows = ['1,yes,,', '2,yes,09:00,', '2,,09:00,', '3,,,', '3,maybe,,', ',yes,,', '99,yes,,'];
    const options = { corrections: file('Berichtigungen.csv', ['line,cancel,arrive,from', ...rows].join('\n')) };
    assert.deepEqual(said(run(TRIPS + OUT + BACK, options)), [
        "Berichtigungen.csv:2: line '1': not a whole number from 2 to 999999999",
        'Berichtigungen.csv:3: the trip is cancelled; arrive has to be empty then',
        "Berichtigungen.csv:4: line '2' of trips.csv is corrected already in line 3",
        'Berichtigungen.csv:5: nothing is corrected here: neither cancel nor a column of the trips is filled in',
        "Berichtigungen.csv:6: cancel 'maybe': allowed is yes, no, ja, nein",
        "Berichtigungen.csv:6: line '3' of trips.csv is corrected already in line 5",
        'Berichtigungen.csv:7: line is empty',
        "Berichtigungen.csv:8: line '99': trips.csv has no trip there",
    ]);
    assert.deepEqual(said(run(TRIPS + OUT, { corrections: 'line,cancel\n9,yes\n', language: 'de' })), [
        "corrections.csv:2: line '9': in trips.csv steht dort keine Fahrt",
    ]);
    assert.deepEqual(said(run(TRIPS + OUT, { corrections: 'cancel\nyes\n' })), [
        "corrections.csv:1: the column 'line' is missing",
    ]);
});

test('wrong values are told as in trips, beside the correction; those of the trips themselves beside these', () => {
    const corrections = 'line,date,arrive,to,level,adults\n2,5.13.26,,Ham Hbf,,\n3,,25:61,,X,11\n4,,,Hamm Hbf,,\n';
    const bad = LATER.replace('08:30', '8 Uhr');
    assert.deepEqual(said(run(TRIPS + OUT + BACK + bad, { corrections })), [
        "trips.csv:4: depart '8 Uhr': not a clock time from 00:00 to 23:59",
        "corrections.csv:2: date '5.13.26': not a date of the years 2000 to 2099; " +
            'write it like 2026-10-31 or 31.10.2026',
        "corrections.csv:2: to 'Ham Hbf': no such stop; did you mean 'ham-hbf'?",
        "corrections.csv:3: arrive '25:61': not a clock time from 00:00 to 47:59",
        "corrections.csv:3: level 'X': no such ticket level; there are K, A, B, C and D, or empty",
        "corrections.csv:3: adults '11': not a whole number from 0 to 10",
    ]);
});

test('what is told of a corrected trip says where it is corrected', () => {
    const result = run(TRIPS + OUT + BACK, { corrections: 'line,arrive\n2,17:30\n' });
    assert.deepEqual(said(result), [
        'trips.csv:2: warning: takes 9 h 30 min; is the arrival right? (corrected in corrections.csv, line 2)',
        'trips.csv:3: warning: overlaps the trip in line 2; refused (10)',
    ]);
    const [german] = said(run(TRIPS + OUT + BACK, { corrections: 'line,arrive\n2,17:30\n', language: 'de' }));
    assert.match(german, /stimmt die Ankunft\? \(berichtigt in corrections\.csv, Zeile 2\)$/);
    const roster = 'number,name\n1,Anna Berg\n';
    const unknown = run(TRIPS + OUT, { corrections: 'line,member\n2,Anna Burg\n', members: roster });
    assert.match(said(unknown)[0], /^trips\.csv:2: member 'Anna Burg': not in members\.csv.*\(corrected in correct/);
});

test('statements and charges say which trips are corrected, and how many are cancelled', () => {
    const corrections = 'line,arrive,cancel\n2,09:00,\n3,,yes\n';
    const result = run(TRIPS + OUT + BACK + LATER, { corrections });
    const { name, corrected: changed, cancelled } = result.corrections;
    assert.deepEqual([name, changed, cancelled.map(({ line }) => line)], ['corrections.csv', 1, [3]]);
    const text = statementText(result.members[0], result, 'en');
    assert.match(text, /^2 trips, 1 corrected, 1 cancelled {2}/m);
    assert.match(text, /1\. Mon 5 Oct 2026, 08:00 – 09:00\n.*\n {4}second class, corrected · /);
    assert.doesNotMatch(text.split(' 2. ')[1] ?? text.split('24-hour window')[2], /, corrected/);
    assert.match(statementText(result.members[0], result, 'de'), /^2 Fahrten, 1 berichtigt, 1 gestrichen {2}/m);
    const [head, first, second] = chargesText(result, 'csv', 'en').split('\n').map((row) => row.split(','));
    assert.deepEqual([head, first, second].map((row) => row.at(-1)), ['corrected', 'yes', '']);
    assert.doesNotMatch(chargesText(run(TRIPS + OUT), 'csv', 'en'), /corrected/);
    const one = statementText(result.members[0], { ...result, period: '2026-11' }, 'en');
    assert.doesNotMatch(one, /cancelled/);
});

// ---- Differences

test('differences have a row for each who rides before or after, and each member’s sum', () => {
    const party = OUT.replace(',,,,,,', ',,,,1,,2');
    const result = corrected(TRIPS + party + BACK, 'line,adults,children,bicycles,from\n2,2,1,1,Hamm Hbf\n');
    assert.equal(
        differencesText(result, 'csv', 'en'),
        `member,rider,before,after,difference
Anna Berg,holder,25.00,25.00,0.00
Anna Berg,adult 1,18.41,18.68,0.27
Anna Berg,adult 2,0.00,18.68,18.68
Anna Berg,child 1,0.00,9.34,9.34
Anna Berg,bicycle 1,3.00,3.00,0.00
Anna Berg,bicycle 2,3.00,0.00,-3.00
Anna Berg,sum,49.41,74.70,25.29
`,
    );
    assert.deepEqual(JSON.parse(differencesText(result, 'json', 'en')).at(-1), {
        ...{ member: 'Anna Berg', rider: 'sum', before: 4941, after: 7470, difference: 2529 },
    });
    assert.match(differencesText(result, 'csv', 'de'), /^\uFEFFmember;rider;.*\n[^]*;bicycle 2;3,00;0,00;-3,00\n/);
    assert.deepEqual(table(corrected(TRIPS + OUT, undefined)), []);
});

test('later windows are included: without the first trip each window opens later', () => {
    const result = corrected(TRIPS + OUT + BACK + LATER, 'line,cancel\n2,yes\n');
    const without = run(TRIPS + BACK + LATER);
    assert.deepEqual(without.members[0].windows.length, 1);
    assert.deepEqual(run(TRIPS + OUT + BACK + LATER).members[0].windows.length, 2);
    assert.deepEqual(table(result), ['Anna Berg,holder,43.41,25.00,-18.41', 'Anna Berg,sum,43.41,25.00,-18.41']);
});

test('a trip of another member changes both; whom no correction concerns is not there', () => {
    const cem = BACK.replace('Anna Berg', 'Cem');
    const result = corrected(TRIPS + OUT + BACK + cem, 'line,member\n3,Dora\n');
    assert.deepEqual(table(result), [
        ...['Anna Berg,holder,25.00,18.41,-6.59', 'Anna Berg,sum,25.00,18.41,-6.59'],
        ...['Dora,holder,0.00,18.41,18.41', 'Dora,sum,0.00,18.41,18.41'],
    ]);
});

test('of a period its own trips count, by their months before and after', () => {
    const moved = 'line,date\n2,2026-11-05\n';
    const of = (period) => table(corrected(TRIPS + OUT + BACK, moved, { period }));
    assert.deepEqual(of('2026-10'), ['Anna Berg,holder,25.00,18.41,-6.59', 'Anna Berg,sum,25.00,18.41,-6.59']);
    assert.deepEqual(of('2026-11'), ['Anna Berg,holder,0.00,18.41,18.41', 'Anna Berg,sum,0.00,18.41,18.41']);
    assert.deepEqual(of(null), ['Anna Berg,holder,25.00,36.82,11.82', 'Anna Berg,sum,25.00,36.82,11.82']);
    assert.deepEqual(of('2026-12'), []);
});

test('who is refused before is charged nothing then, and so is who is refused after', () => {
    const overlap = BACK.replace('17:00', '09:00');
    const result = corrected(TRIPS + OUT + overlap, 'line,depart\n3,17:00\n');
    assert.deepEqual(table(result), ['Anna Berg,holder,18.41,25.00,6.59', 'Anna Berg,sum,18.41,25.00,6.59']);
    assert.equal(result.refused, 0);
    const back = corrected(TRIPS + OUT + BACK, 'line,depart,arrive\n3,09:00,10:00\n');
    assert.deepEqual([back.refused, table(back).at(-1)], [1, 'Anna Berg,sum,25.00,18.41,-6.59']);
});

test('under a ceiling there are what is charged and what is collected', () => {
    const of = (ceiling) => table(corrected(TRIPS + OUT + BACK, 'line,cancel\n3,yes\n', { ceiling }));
    assert.deepEqual(of(2000), [
        ...['Anna Berg,holder,25.00,18.41,-6.59', 'Anna Berg,charged,25.00,18.41,-6.59'],
        'Anna Berg,collected,20.00,18.41,-1.59',
    ]);
    assert.equal(of(100).at(-1), 'Anna Berg,collected,1.00,1.00,0.00');
});

/** A random ride as the cells of a row; nothing is empty, since an empty cell of a correction keeps what was. */
function randomRide(below) {
    const stops = ['Münster Hbf', 'Hamm Hbf', 'Bielefeld Hbf', 'Aachen Hbf', 'Bielefeld Rathaus'];
    const hour = 5 + below(17);
    const times = [`${hour}:${10 + below(50)}`, `${hour + 1}:${10 + below(50)}`];
    const ride = [stops[below(5)], stops[below(5)], 'Hamm Hbf', 1 + below(2), 'A'];
    return [`Crew ${below(3)}`, `2026-10-0${1 + below(5)}`, ...times, ...ride, below(3), below(2), below(2)];
}

/** What each rider was charged in all, by the table of charges. */
function chargesByRider({ charges }) {
    const sums = new Map();
    for (const { member, rider, charge } of charges.filter((row) => row.rider !== null)) {
        sums.set(`${member}, ${rider}`, (sums.get(`${member}, ${rider}`) ?? 0) + charge);
    }
    return sums;
}

test('random corrections: all is that of settling the corrected trips, and each difference is new less old', () => {
    const seen = { less: 0, more: 0, refused: 0 };
    for (let seed = 1; seed <= 20; seed += 1) {
        const below = numbers(seed);
        const rides = Array.from({ length: 40 }, () => randomRide(below));
        const after = rides.map((ride) => [ride, ride, ride, null, randomRide(below)][below(5)]);
        const [was, now] = [rides, after.filter((ride) => ride !== null)].map((rows) => run(TRIPS + text(rows)));
        const result = corrected(TRIPS + text(rides), changesOf(rides, after));
        assert.equal(wagesText(result, 'csv', 'en'), wagesText(now, 'csv', 'en'), `seed ${seed}`);
        const [old, due] = [was, now].map(chargesByRider);
        const rows = result.differences.filter(({ who }) => who !== null);
        const found = new Map(rows.map((row) => [`${row.member}, ${row.rider}`, row]));
        for (const key of new Set([...old.keys(), ...due.keys()])) {
            const { before = 0, after: then = 0 } = found.get(key) ?? {};
            assert.deepEqual([before, then], [old.get(key) ?? 0, due.get(key) ?? 0], `seed ${seed}, ${key}`);
        }
        seen.refused += was.refused + now.refused;
        seen.less += result.differences.filter(({ difference }) => difference < 0).length;
        seen.more += result.differences.filter(({ difference }) => difference > 0).length;
    }
    for (const [what, count] of Object.entries(seen)) assert.ok(count > 50, `${what}: ${count}`);
});
