// Corrections by the command: its word `correct`, what the other words say, and books that are replaced.
import assert from 'node:assert/strict';
import { spawnSync } from 'node:child_process';
import fs from 'node:fs';
import os from 'node:os';
import path from 'node:path';
import { after, test } from 'node:test';
import { ROOT, SAMPLE, TRIPS } from './support.mjs';

const room = fs.mkdtempSync(path.join(os.tmpdir(), 'corrections-'));
after(() => fs.rmSync(room, { recursive: true }));

const OCTOBER = 'Anna,2026-10-31,22:40,23:55,Münster Hbf,Bielefeld Hbf,,,,,,\n';
const NOVEMBER = 'Anna,2026-11-01,05:30,06:45,Bielefeld Hbf,Münster Hbf,,,,,,\n';
const LATE = 'Anna,2026-10-31,12:00,12:30,Hamm Hbf,Hamm Betriebshof,,,,,,\n';

/** A folder with the sample's tariff and other files, and the command in it. */
function desk(name, files) {
    const place = path.join(room, name);
    fs.mkdirSync(place);
    for (const own of ['areas.csv', 'stops.csv']) fs.copyFileSync(path.join(SAMPLE, own), path.join(place, own));
    const put = (own, text) => fs.writeFileSync(path.join(place, own), text);
    for (const [own, text] of Object.entries(files)) put(own, text);
    const called = (...words) => {
        const [program, options] = [path.join(ROOT, 'milecopper'), { cwd: place, encoding: 'utf8' }];
        const { status, stdout, stderr } = spawnSync(program, [...words, '--language', 'en'], options);
        return { status, out: stdout, told: stderr };
    };
    return { place, put, called };
}

const NOTE = './milecopper: corrections: corrections.csv (trips corrected: 1, cancelled: 0)\n';

test('all words work on the corrected trips and say so', () => {
    const { called } = desk('words', { 'trips.csv': TRIPS + OCTOBER, 'corrections.csv': 'line,class\n2,1\n' });
    const check = called('check');
    assert.deepEqual([check.out, check.told], ['errors: 0, warnings: 0\ntrips priced: 1, members: 1\n', NOTE]);
    const wages = called('wages');
    assert.deepEqual([wages.out, wages.told], ['member,period,trips,refused,amount\nAnna,2026-10,1,0,27.62\n', NOTE]);
    assert.match(called('settle').out, /,corrected\nAnna,2,.*,27\.62,.*,yes\n$/);
    assert.match(called('statement').out, /first class, corrected · /);
    assert.match(called('statement', '--member', 'Anna').out, /1 trip, 1 corrected/);
    const closing = called('close', '--period', '2026-10', '--today', '2026-11-02');
    assert.deepEqual([closing.status, closing.told], [0, NOTE]);
});

test('correct prints the differences, and writes them with --out', () => {
    const { place, called } = desk('correct', { 'trips.csv': TRIPS + OCTOBER, 'mine.csv': 'line,class\n2,1\n' });
    const table = 'member,rider,before,after,difference\nAnna,holder,18.41,27.62,9.21\nAnna,sum,18.41,27.62,9.21\n';
    const printed = called('correct', '--corrections', 'mine.csv');
    assert.deepEqual([printed.status, printed.out], [0, table]);
    const written = called('correct', '--corrections', 'mine.csv', '--out', 'out');
    assert.equal(written.out, 'written: out/differences.csv\n');
    assert.deepEqual(fs.readdirSync(path.join(place, 'out')), ['differences.csv']);
    assert.equal(fs.readFileSync(path.join(place, 'out/differences.csv'), 'utf8'), table);
    const json = JSON.parse(called('correct', '--corrections', 'mine.csv', '--format', 'json').out);
    assert.deepEqual(json[0], { member: 'Anna', rider: 'holder', before: 1841, after: 2762, difference: 921 });
    assert.equal(called('correct').out, 'member,rider,before,after,difference\n');
    const ceiling = called('correct', '--corrections', 'mine.csv', '--ceiling', '20.00').out;
    assert.match(ceiling, /\nAnna,charged,18\.41,27\.62,9\.21\nAnna,collected,18\.41,20\.00,1\.59\n$/);
});

test('mistakes of corrections end with status 2, and nothing is written', () => {
    const files = { 'trips.csv': TRIPS + OCTOBER, 'corrections.csv': 'line,cancel\n7,yes\n' };
    const { place, called } = desk('mistakes', files);
    const { status, out, told } = called('correct', '--out', 'out');
    assert.deepEqual([status, out, told], [2, '', "corrections.csv:2: line '7': trips.csv has no trip there\n"]);
    assert.equal(fs.existsSync(path.join(place, 'out')), false);
    const gone = called('correct', '--corrections', 'gone.csv');
    assert.deepEqual([gone.status, gone.told], [2, './milecopper: cannot be read: gone.csv (not there)\n']);
});

test('a supplement: with the wages, the books stay, and are replaced only with --reopen', () => {
    const { place, put, called } = desk('late', { 'trips.csv': TRIPS + OCTOBER });
    assert.equal(called('close', '--period', '2026-10', '--today', '2026-11-02').status, 0);
    const books = () => fs.readFileSync(path.join(place, 'books-2026-10.json'), 'utf8');
    const closed = books();
    put('trips.csv', TRIPS + OCTOBER + LATE + NOVEMBER);
    const wages = called('wages', '--period', 'open');
    assert.match(wages.told, /late or changed: .* '\.\/milecopper correct' prices it as a supplement$/m);
    assert.equal(wages.out, 'member,period,trips,refused,amount\nAnna,2026-11,1,0,6.59\n');
    const supplement = called('correct', '--period', 'open', '--out', 'out');
    const written = 'written: out/differences.csv\nwritten: out/wages.csv\n';
    assert.deepEqual([supplement.status, supplement.out], [0, written]);
    const saved = () => fs.readFileSync(path.join(place, 'out/wages.csv'), 'utf8');
    assert.equal(
        saved(),
        'member,period,trips,refused,amount,supplement\nAnna,2026-11,1,0,6.59,\nAnna,2026-10,1,0,2.00,yes\n',
    );
    assert.equal(books(), closed);
    const reopened = called('correct', '--period', 'open', '--out', 'out', '--reopen');
    assert.match(reopened.out, /written: books-2026-10\.json\n$/);
    assert.match(saved(), /2026-11,1,0,4\.59,\nAnna,2026-10,1,0,2\.00,yes\n$/);
    assert.notEqual(books(), closed);
    assert.equal(called('correct', '--period', 'open').out, 'member,rider,before,after,difference\n');
    assert.deepEqual(called('wages', '--period', 'open'), {
        ...{ status: 0, out: 'member,period,trips,refused,amount\nAnna,2026-11,1,0,4.59\n' },
        told: './milecopper: books: books-2026-10.json\n',
    });
});

test('books are not replaced for others, and a closed month is not corrected by itself', () => {
    const trips = TRIPS + OCTOBER + OCTOBER.replace('Anna', 'Cem');
    const { place, put, called } = desk('others', { 'trips.csv': trips });
    assert.equal(called('close', '--period', '2026-10', '--today', '2026-11-02').status, 0);
    const books = fs.readFileSync(path.join(place, 'books-2026-10.json'), 'utf8');
    put('trips.csv', TRIPS + OCTOBER + LATE);
    const refused = called('correct', '--reopen', '--out', 'out');
    assert.deepEqual([refused.status, refused.out], [2, '']);
    assert.match(refused.told, /not replaced: in books-2026-10\.json 'Cem' would be another, too, without a/);
    assert.equal(fs.readFileSync(path.join(place, 'books-2026-10.json'), 'utf8'), books);
    assert.equal(fs.existsSync(path.join(place, 'out')), false);
    const alone = called('correct', '--period', '2026-10');
    assert.deepEqual([alone.status, alone.out], [2, '']);
    assert.match(alone.told, /2026-10 is closed: what changes there is a supplement, and comes with the open month/);
    const word = called('wages', '--reopen');
    assert.deepEqual([word.status, word.told.split('\n')[0]], [2, './milecopper: --reopen is only for correct']);
});
