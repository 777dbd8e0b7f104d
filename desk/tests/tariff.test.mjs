import assert from 'node:assert/strict';
import { test } from 'node:test';
import { TRIPS, engine, formatBytes, run, said, sample } from './support.mjs';

// The Aachen tariff of docs/FORMAT.md, columns in another order, with commas and decimal points.
const AREAS = `level,id,name,within,kind,base,per_km,valid_min,first_percent,child_percent,\
cap_k,cap_a,cap_b,cap_c,cap_d,day_cap,bicycle,bicycle_trip,child_k,child_a,child_b,child_c,child_d,factor
state,0,NRW,,1,1.80,0.28,360,50,50,,,,,,30,5,,,,,,,3
region,1,Aachen,0,8,1.41,0.27,180,50,50,2.1,3.40,5,8.20,12.50,20.60,3.47,2.28,1.10,1.60,2.50,4.10,6.30,3
`;
const STOPS = 'y_m,x_m,area,name,id\n100000,200000,Aachen,Hbf,a\n100000,209000,1,West,b\n';

test('the bytes are those of docs/FORMAT.md', () => {
    const result = run(`${TRIPS}A,2026-10-31,23:50,00:15,a,b,,,A,,1,1\n`, { areas: AREAS, stops: STOPS });
    assert.deepEqual(said(result), []);
    assert.deepEqual(result.tariff.bytes, formatBytes('aachen-tariff')); // one edition, from 2000-01-01
    const riders = result.members[0].entries[0].parts[0].riders;
    assert.deepEqual(
        riders.map(({ sort, charge }) => [sort, charge]),
        [['holder', 340], ['child', 160], ['bicycle', 228]],
    );
});

test('the sample is a tariff that the library takes', () => {
    assert.equal(engine.checkTariff(run(TRIPS).tariff.bytes).accepted, true);
});

const areasWith = (old, now) => said(run(TRIPS, { areas: sample('areas.csv').replace(old, now) }));

test('where an area stands', () => {
    assert.deepEqual(areasWith('WF;Westfalen;1;region;NRW', 'WF;Westfalen;1;state;NRW').slice(0, 1), [
        'areas.csv:3: the first area has to be the state (level state), and no other may',
    ]);
    assert.deepEqual(areasWith('BI;Bielefeld;1;city;Westfalen', 'BI;Bielefeld;1;city;VRR'), [
        "areas.csv:4: within 'VRR': a region lies in the state, a city in a region that stands before it",
    ]);
    assert.deepEqual(
        areasWith('BI;Bielefeld;1;city;Westfalen', 'BI;Bielefeld;1;city;'),
        ['areas.csv:4: within is empty'],
    );
});

test('columns that are only for other areas, and caps that exclude each other', () => {
    assert.deepEqual(areasWith('5,50;1,50;;;;;;;;;', '5,50;1,50;2,28;;;;;;km;4;'), [
        'areas.csv:4: factor has to be empty: only for the state and regions',
        'areas.csv:4: bicycle_trip has to be empty: only for areas of kind 8',
        'areas.csv:4: town has to be empty: only for areas of kind 8',
    ]);
    assert.deepEqual(areasWith('50;50;2,30;90;;', '50;50;2,30;90;2,10;'), [
        'areas.csv:4: trip_cap and cap_k to cap_d exclude each other',
        'areas.csv:4: cap_a is empty',
        'areas.csv:4: cap_b is empty',
        'areas.csv:4: cap_c is empty',
        'areas.csv:4: cap_d is empty',
    ]);
    assert.deepEqual(areasWith('50;50;2,30;90;;', '50;50;2,30;;;'), ['areas.csv:4: trip_cap_min is empty']);
});

test('a tariff that the library refuses is told by the line of the faulty record', () => {
    const [bicycle] = areasWith('5,50;1,50;', '5,50;3,50;'); // a city's flat above its region's
    assert.match(bicycle, /^areas\.csv:4: the tariff is refused here \(3\): /);
    const stolberg = sample('areas.csv').split('\n')[10];
    const [kind] = areasWith(stolberg, stolberg.replace(';8;', ';1;').replace('2,28', '').replace('km', ''));
    assert.match(kind, /^areas\.csv:11: the tariff is refused here \(3\): /);
    const stops = Array.from({ length: 1001 }, (_, i) => `s${i};Stop ${i};NRW;${i};0\n`);
    const many = `id;name;area;x_m;y_m\n${stops.join('')}`;
    assert.match(said(run(TRIPS, { stops: many }))[0], /^stops\.csv:1002: the tariff is refused here \(2\): /);
    const none = sample('areas.csv').split('\n')[0];
    assert.match(
        said(run(TRIPS, { areas: none, stops: 'id,name,area,x_m,y_m\n' }))[0],
        /^areas\.csv:1: the tariff is refused here \(2\): /,
    );
});
