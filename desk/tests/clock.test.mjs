import assert from 'node:assert/strict';
import { test } from 'node:test';
import { clockOf, dayOf, localOf, momentsOf, monthOf, offsetText, timeOf, tripTimes } from '../clock.mjs';

const berlin = clockOf('Europe/Berlin');
const START = Date.UTC(2000, 0, 1);
const utc = (year, month, day, hour, minute) => (Date.UTC(year, month - 1, day, hour, minute) - START) / 60000;
const times = (date, depart, arrive) => tripTimes(berlin, dayOf(date), timeOf(depart), timeOf(arrive));
const minutes = ({ checkIn, checkOut }) => [checkIn.minute, checkOut.minute];

test('dates in the three spellings, and no other', () => {
    assert.equal(dayOf('2000-01-01'), 0);
    assert.equal(dayOf('2028-02-29'), dayOf('29.2.2028'));
    assert.equal(dayOf('2026-10-31'), 9800);
    assert.equal(dayOf('02.10.26'), dayOf('2026-10-02'));
    assert.equal(dayOf('2.1.20'), dayOf('2020-01-02'));
    const bad = ['2026-02-29', '2026-13-01', '31.9.2026', '1999-12-31', '2100-01-01', '26-10-31', '31/10/2026', ''];
    const none = [...bad, '31.9.26', '2.10.126', '2.10.1926', '2.10.', '02.10.0026'];
    for (const text of none) assert.equal(dayOf(text), null, text);
});

test('clock times, to the end of the next day, with an offset or without', () => {
    assert.deepEqual(timeOf('23:50'), { minutes: 1430, offset: null });
    assert.deepEqual(timeOf('5:08:00'), { minutes: 308, offset: null });
    assert.deepEqual(timeOf('24:21'), { minutes: 1461, offset: null });
    assert.deepEqual(timeOf('02:50+02:00'), { minutes: 170, offset: 120 });
    for (const text of ['5.08', '05.08', '0508', '508']) assert.deepEqual(timeOf(text), timeOf('05:08'), text);
    assert.deepEqual(timeOf('2.50+01:00'), { minutes: 170, offset: 60 });
    const none = ['48:00', '12:60', '1260', '12.5', '12:5', '12:50+2', '', '8', '50', '12345', '5.08.10'];
    for (const text of none) assert.equal(timeOf(text), null, text);
});

test('a whole year of Berlin: each minute of the wall is there once, but for two hours', () => {
    let [none, twice] = [0, 0];
    for (let day = dayOf('2026-01-01'); day < dayOf('2027-01-01'); day += 1) {
        for (let minute = 0; minute < 1440; minute += 1) {
            const moments = momentsOf(berlin, day, minute);
            if (moments.length === 0) none += 1;
            if (moments.length === 2) twice += 1;
            for (const moment of moments) {
                assert.equal(
                    localOf(berlin, moment.minute),
                    new Date(Date.UTC(2000, 0, 1) + (day * 1440 + minute) * 60000).toISOString().slice(0, 16),
                );
            }
        }
    }
    assert.deepEqual([none, twice], [60, 60]);
});

test('an arrival earlier than the departure is the next day, and so is 24:21', () => {
    const due = [utc(2026, 10, 31, 22, 50), utc(2026, 10, 31, 23, 21)];
    assert.deepEqual(minutes(times('2026-10-31', '23:50', '00:21')), due);
    assert.deepEqual(minutes(times('31.10.2026', '23:50', '24:21')), due);
    assert.deepEqual(
        minutes(times('2026-10-31', '10:00', '10:00')),
        [utc(2026, 10, 31, 9, 0), utc(2026, 10, 31, 9, 0)],
    );
});

test('on days without a change the times are those that are read with the offset written, all the year', () => {
    for (let day = dayOf('2026-01-01'); day < dayOf('2027-01-01'); day += 1) {
        const noon = berlin.offsetAt(day * 1440 + 720);
        for (const [depart, arrive] of [['08:00', '09:10'], ['23:50', '00:21'], ['05:00', '24:00']]) {
            const read = (offset) => tripTimes(berlin, day, { ...timeOf(depart), offset }, timeOf(arrive));
            const next = berlin.offsetAt((day + 1) * 1440 + 720);
            if (noon === next && noon === berlin.offsetAt((day - 1) * 1440)) assert.deepEqual(read(null), read(noon));
        }
    }
    assert.equal(berlin.steadyOffset(dayOf('2026-07-01')), 120);
    assert.equal(berlin.steadyOffset(dayOf('2026-12-01')), 60);
    const near = ['2026-10-23', '2026-10-24', '2026-10-25', '2026-10-26', '2026-03-28', '2026-03-29'];
    for (const date of near) assert.equal(berlin.steadyOffset(dayOf(date)), null, date);
});

test('the October night: the order tells the hours apart where it can', () => {
    const due = [utc(2026, 10, 25, 0, 50), utc(2026, 10, 25, 1, 10)];
    assert.deepEqual(minutes(times('2026-10-25', '02:50', '02:10')), due);
    assert.deepEqual(minutes(times('2026-10-25', '02:50+02:00', '02:10+01:00')), due);
    assert.deepEqual(
        minutes(times('2026-10-25', '01:50', '03:10')),
        [utc(2026, 10, 24, 23, 50), utc(2026, 10, 25, 2, 10)],
    );
    assert.deepEqual(
        minutes(times('2026-10-25', '02:50+01:00', '02:55')),
        [utc(2026, 10, 25, 1, 50), utc(2026, 10, 25, 1, 55)],
    );
    assert.deepEqual(
        minutes(times('2026-10-25', '02:50', '02:55+02:00')),
        [utc(2026, 10, 25, 0, 50), utc(2026, 10, 25, 0, 55)],
    );
});

test('the October night: where the order cannot, the offset has to be written', () => {
    const columns = (...words) => times(...words).faults.map(({ column, fault }) => `${column} ${fault}`);
    assert.deepEqual(columns('2026-10-25', '02:10', '02:50'), ['depart twice', 'arrive twice']);
    assert.deepEqual(columns('2026-10-25', '01:30', '02:10'), ['arrive twice']);
    assert.deepEqual(columns('2026-10-24', '23:30', '02:10'), ['arrive twice']);
    assert.deepEqual(columns('2026-10-24', '23:30', '26:10'), ['arrive twice']);
    assert.deepEqual(columns('2026-10-25', '02:30', '03:10'), ['depart twice']);
});

test('the March night: twenty minutes over the gap, and a time that never was', () => {
    assert.deepEqual(
        minutes(times('2026-03-29', '01:50', '03:10')),
        [utc(2026, 3, 29, 0, 50), utc(2026, 3, 29, 1, 10)],
    );
    const columns = (...words) => times(...words).faults.map(({ column, fault }) => `${column} ${fault}`);
    assert.deepEqual(columns('2026-03-29', '02:30', '03:10'), ['depart never']);
    assert.deepEqual(columns('2026-03-29', '01:50', '02:30'), ['arrive never']);
    assert.deepEqual(columns('2026-03-28', '23:50', '02:30'), ['arrive never']);
    assert.deepEqual(
        minutes(times('2026-03-29', '03:30', '02:30')),
        [utc(2026, 3, 29, 1, 30), utc(2026, 3, 30, 0, 30)],
    );
});

test('an offset that the clock did not have is told with the one that it had', () => {
    assert.deepEqual(
        times('2026-10-31', '12:00+02:00', '13:00').faults,
        [{ column: 'depart', fault: 'offset', offsets: [60] }],
    );
});

test('a month is that of the local date, and the zone is an argument', () => {
    const minute = utc(2026, 10, 31, 23, 30);
    assert.equal(monthOf('Europe/Berlin', minute), '2026-11');
    assert.equal(monthOf('UTC', minute), '2026-10');
    assert.equal(offsetText(120), '+02:00');
    assert.equal(offsetText(-330), '-05:30');
});
