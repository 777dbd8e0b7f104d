import assert from 'node:assert/strict';
import { spawnSync } from 'node:child_process';
import fs from 'node:fs';
import os from 'node:os';
import path from 'node:path';
import { after, test } from 'node:test';
import { booksText } from '../books.mjs';
import { statementText } from '../statement.mjs';
import { chargesText, wagesText } from '../wages.mjs';
import { ROOT, SAMPLE, TRIPS, run, sample } from './support.mjs';

const room = fs.mkdtempSync(path.join(os.tmpdir(), 'desk-'));
after(() => fs.rmSync(room, { recursive: true }));

function called(...words) {
    const { status, stdout, stderr } = spawnSync(path.join(ROOT, 'milecopper'), words, { cwd: room, encoding: 'utf8' });
    return { status, out: stdout, told: stderr };
}

/** A folder with the sample's tariff and these trips. */
function folder(name, trips) {
    const place = path.join(room, name);
    fs.mkdirSync(place);
    for (const file of ['areas.csv', 'stops.csv']) fs.copyFileSync(path.join(SAMPLE, file), path.join(place, file));
    fs.writeFileSync(path.join(place, 'trips.csv'), trips);
    return place;
}

const NIGHT = `${TRIPS}Anna,2026-10-31,22:40,23:55,Münster Hbf,Bielefeld Hbf,,,,,,
Anna,2026-11-01,05:30,06:45,Bielefeld Hbf,Münster Hbf,,,,,,
`;

test('help, version, and words that are not known', () => {
    assert.match(called('--help').out, /^usage: \.\/milecopper .*\n[^]*Lohnbüro/);
    assert.match(called('--help', '--language', 'en').out, /wage office/);
    assert.match(called('--version').out, /^milecopper \d+\.\d+\.\d+\n$/);
    const wrong = ['', 'price', 'toString', '--frob', 'check a b', 'check --format xml', 'check --language fr'];
    for (const words of [...wrong, 'wages --period 2026-13', 'close .', 'check --today 2026-02-30']) {
        const { status, out, told } = called(...words.split(' ').filter(Boolean));
        assert.deepEqual([status, out], [2, ''], words);
        assert.match(told, /^\.\/milecopper: .*\nusage: /);
    }
});

test('status 0 where all is priced, 1 where a trip is refused, 2 with mistakes', () => {
    const good = called('check', folder('good', NIGHT), '--language', 'en');
    assert.deepEqual(good, { status: 0, out: 'errors: 0, warnings: 0\ntrips priced: 2, members: 1\n', told: '' });
    const refused = called('check', SAMPLE);
    assert.equal(refused.status, 1);
    assert.match(
        refused.out,
        /^trips\.csv:28: Warnung: überschneidet sich mit der Fahrt in Zeile 27; wird abgelehnt \(10\)$/m,
    );
    const bad = folder('bad', NIGHT.replace('Münster Hbf', 'Muenster Hbf').replace('05:30', '5 Uhr'));
    assert.deepEqual(called('check', bad, '--language', 'en'), {
        status: 2,
        out: `trips.csv:2: from 'Muenster Hbf': no such stop; did you mean 'Münster Hbf'?
trips.csv:3: depart '5 Uhr': not a clock time from 00:00 to 23:59
errors: 2, warnings: 0
`,
        told: '',
    });
    const settled = called('settle', bad, '--out', path.join(room, 'nothing'));
    assert.deepEqual([settled.status, settled.out], [2, '']);
    assert.equal(fs.existsSync(path.join(room, 'nothing')), false);
    assert.deepEqual(
        [called('wages', path.join(room, 'nowhere')).status, called('wages', SAMPLE, '--trips', 'gone.csv').status],
        [2, 2],
    );
});

test('tables are printed, or written whole', () => {
    const place = folder('tables', NIGHT);
    assert.equal(
        called('wages', place, '--period', '2026-11', '--language', 'en').out,
        'member,period,trips,refused,amount\nAnna,2026-11,1,0,6.59\n',
    );
    const out = path.join(room, 'tables-out');
    const written = called('settle', place, '--format', 'json', '--out', out, '--language', 'en');
    assert.deepEqual([written.status, written.out], [0, `written: ${path.join(out, 'charges.json')}\n`]);
    assert.deepEqual(
        JSON.parse(fs.readFileSync(path.join(out, 'charges.json'))).map(({ charge }) => charge),
        [1841, 659],
    );
    assert.deepEqual(fs.readdirSync(out), ['charges.json']);
    const tariff = ['--areas', path.join(SAMPLE, 'areas.csv'), '--stops', path.join(SAMPLE, 'stops.csv')];
    const named = called('wages', ...tariff, '--trips', path.join(place, 'trips.csv'));
    assert.equal(
        named.out,
        '\uFEFFmember;period;trips;refused;amount\nAnna;2026-10;1;0;18,41\nAnna;2026-11;1;0;6,59\n',
    );
});

test('a statement for each member, printed or written, and of one alone', () => {
    const place = folder('statements', NIGHT + NIGHT.replace(TRIPS, '').replaceAll('Anna', 'Cem/Yıldız'));
    const out = path.join(room, 'statements-out');
    const all = called('statement', place, '--period', '2026-11', '--out', out, '--language', 'en');
    assert.deepEqual([all.status, fs.readdirSync(out)], [0, ['statement-Anna.txt', 'statement-Cem_Yıldız.txt']]);
    const one = called('statement', place, '--period', '2026-11', '--member', 'Anna', '--language', 'en');
    assert.equal(one.out, fs.readFileSync(path.join(out, 'statement-Anna.txt'), 'utf8'));
    assert.match(one.out, /6\.59/);
    assert.equal(called('statement', place, '--member', 'Bert').status, 2);
});

test('wages and charges of one member, and of none that is not there', () => {
    const place = folder('one', NIGHT + NIGHT.replace(TRIPS, '').replaceAll('Anna', 'Cem'));
    const words = ['--language', 'en', '--member'];
    const wages = called('wages', place, ...words, 'Cem');
    assert.equal(
        wages.out,
        'member,period,trips,refused,amount\nCem,2026-10,1,0,18.41\nCem,2026-11,1,0,6.59\n',
    );
    const charges = called('settle', place, '--format', 'json', ...words, 'Cem');
    assert.deepEqual(JSON.parse(charges.out).map(({ member, line }) => [member, line]), [['Cem', 4], ['Cem', 5]]);
    const none = called('wages', place, ...words, 'Bert');
    assert.deepEqual([none.status, none.out], [2, '']);
    assert.equal(none.told, "./milecopper: no member 'Bert' with trips in this period\n");
    const check = called('check', place, ...words, 'Cem');
    assert.deepEqual([check.status, check.out], [2, '']);
    assert.match(check.told, /--member is only for settle, statement, wages/);
});

test('a month is closed once, and the next one goes on from its books', () => {
    const place = folder('months', NIGHT);
    const books = path.join(place, 'books-2026-10.json');
    assert.deepEqual(
        called('close', place, '--period', '2026-10', '--language', 'en', '--today', '2026-11-03'),
        { status: 0, out: `written: ${books}\n`, told: '' },
    );
    assert.match(
        called('close', place, '--period', '2026-10', '--language', 'en').told,
        /is there already: a month is closed once/,
    );
    fs.writeFileSync(path.join(place, 'trips.csv'), NIGHT.replace(/.*2026-10-31.*\n/, ''));
    const next = called('wages', place, '--period', '2026-11', '--language', 'en');
    assert.deepEqual([next.status, next.told], [0, `./milecopper: books: ${books}\n`]);
    assert.equal(next.out, 'member,period,trips,refused,amount\nAnna,2026-11,1,0,6.59\n');
    fs.writeFileSync(path.join(place, 'areas.csv'), sample('areas.csv').replace('25,00;3,00', '24,00;3,00'));
    const other = called('wages', place, '--period', '2026-11', '--language', 'en');
    assert.deepEqual([other.status, other.out], [2, '']);
    assert.match(other.told, /^books-2026-10\.json:1: since the closing areas have other prices.*--new-tariff/m);
    const meant = called('wages', place, '--period', '2026-11', '--language', 'en', '--new-tariff');
    assert.deepEqual([meant.status, meant.out], [0, 'member,period,trips,refused,amount\nAnna,2026-11,1,0,5.59\n']);
    assert.match(meant.told, /^books-2026-10\.json:1: warning: a new tariff: .* old tariff: Anna$/m);
});

test('closing a month of the future, or one that leaves an earlier month open, asks for --force and says why', () => {
    const place = folder('force', NIGHT);
    const close = (...words) => called('close', place, '--language', 'en', ...words);
    const early = close('--period', '2026-11', '--today', '2026-10-15');
    assert.deepEqual([early.status, early.out], [2, '']);
    assert.equal(
        early.told,
        './milecopper: not closed: November 2026 lies in the future (today is Thu 15 Oct 2026); ' +
            'before November 2026 these are not closed yet: October 2026 (trips: 1). If it is meant: --force\n',
    );
    assert.deepEqual(fs.readdirSync(place), ['areas.csv', 'stops.csv', 'trips.csv']);
    const running = close('--period', '2026-10', '--today', '2026-10-31');
    assert.equal(running.status, 0);
    assert.match(running.told, /October 2026 is not over yet \(today is Sat 31 Oct 2026\)/);
    assert.equal(close('--period', '2026-12', '--today', '2027-01-02').status, 2);
    assert.equal(close('--period', '2026-12', '--today', '2027-01-02', '--force').status, 0);
    assert.equal(close('--period', '2026-11', '--today', '2027-01-02').status, 2); // a later month is closed
});

test('the open month can be asked for by that word: it is the one behind the books', () => {
    const place = folder('open', NIGHT);
    const wages = () => called('wages', place, '--period', 'open', '--language', 'en').out.split('\n')[1];
    assert.equal(wages(), 'Anna,2026-10,1,0,18.41');
    assert.equal(called('close', place, '--period', 'open', '--today', '2026-11-03').status, 0);
    assert.equal(wages(), 'Anna,2026-11,1,0,6.59');
    assert.equal(called('close', place, '--period', 'open', '--today', '2026-12-03').status, 0);
    const { out, told } = called('check', place, '--period', 'open', '--language', 'en');
    assert.deepEqual([out.split('\n')[0], told.split('/').at(-1)], ['errors: 0, warnings: 0', 'books-2026-11.json\n']);
});

test("members.csv of the folder, or one that is named, puts the personnel numbers into the wages", () => {
    const place = folder('members', NIGHT);
    const wages = (...words) => called('wages', place, '--period', '2026-11', '--language', 'en', ...words);
    const row = (...words) => wages(...words).out.split('\n')[1];
    assert.equal(row(), 'Anna,2026-11,1,0,6.59');
    fs.writeFileSync(path.join(place, 'members.csv'), 'number,name\n0815,Anna\n');
    assert.equal(row(), 'Anna,2026-11,1,0,6.59,0815');
    fs.writeFileSync(path.join(place, 'other.csv'), 'number,name\n7,Anna\n');
    assert.equal(row('--members', path.join(place, 'other.csv')), 'Anna,2026-11,1,0,6.59,7');
    assert.equal(called('wages', place, '--members', path.join(place, 'gone.csv')).status, 2);
});

test('two books of one month in a folder are an error that names both, and one that is named alone is taken', () => {
    const place = folder('twice', NIGHT);
    assert.equal(called('close', place, '--period', '2026-10', '--today', '2026-11-03').status, 0);
    fs.copyFileSync(path.join(place, 'books-2026-10.json'), path.join(place, 'books-2026-10 (1).json'));
    const both = called('wages', place, '--period', '2026-11', '--language', 'en');
    assert.deepEqual([both.status, both.out], [2, '']);
    assert.match(both.told, /books of October 2026 twice: books-2026-10 \(1\)\.json and books-2026-10\.json/);
    const books = path.join(place, 'books-2026-10.json');
    const one = called('wages', place, '--period', '2026-11', '--language', 'en', '--books', books);
    assert.deepEqual([one.status, one.out.split('\n')[1]], [0, 'Anna,2026-11,1,0,6.59']);
    assert.equal(called('wages', place, '--period', '2026-11', '--books', books, '--books', books).status, 2);
    const closed = called('wages', place, '--period', '2026-10', '--language', 'en', '--books', books);
    assert.match(closed.told, /the books are closed to 2026-10 already, and 2026-10 is asked for/);
});

test('--ceiling: wages, charges, statement and books are those of the core', () => {
    const trips = NIGHT + NIGHT.replace(TRIPS, '').replaceAll('Anna', 'Cem');
    const place = folder('ceiling', trips);
    const result = run(trips, { period: '2026-10', ceiling: 1000 });
    const words = ['--period', '2026-10', '--ceiling', '10,00', '--language', 'en'];
    const out = (word, ...more) => called(word, place, ...words, ...more).out;
    assert.equal(out('wages'), wagesText(result, 'csv', 'en'));
    assert.equal(out('settle'), chargesText(result, 'csv', 'en'));
    assert.equal(out('wages', '--member', 'Cem').split('\n')[1], 'Cem,2026-10,1,0,10.00,18.41');
    assert.match(out('settle', '--member', 'Cem').split('\n')[0], /,collected$/);
    assert.equal(out('statement', '--member', 'Anna'), statementText(result.members[0], result, 'en'));
    assert.equal(called('close', place, ...words, '--today', '2026-11-03').status, 0);
    const books = fs.readFileSync(path.join(place, 'books-2026-10.json'), 'utf8');
    assert.equal(books, booksText(result));
    const next = called('wages', place, '--period', 'open', '--ceiling=5', '--language', 'en');
    assert.deepEqual([next.status, next.out.split('\n')[1]], [0, 'Anna,2026-11,1,0,5.00,6.59']);
    const without = called('wages', place, '--period', 'open', '--language', 'en');
    assert.deepEqual([without.status, without.out], [2, '']);
    assert.match(without.told, /^books-2026-10\.json:1: these books were written under a monthly ceiling/m);
});

test('--ceiling with what is no such amount is told in words, and nothing is put out', () => {
    for (const value of ['abc', '10000,01', '-5,00', '', '150,001']) {
        const de = called('wages', SAMPLE, '--ceiling', value);
        assert.deepEqual([de.status, de.out], [2, ''], value);
        const due = `./milecopper: --ceiling '${value}': kein Betrag in Euro von 0,00 bis 10000,00\nusage: `;
        assert.equal(de.told.slice(0, due.length), due);
    }
    const en = called('check', SAMPLE, '--ceiling=1.000,00', '--language', 'en');
    assert.match(en.told, /^\.\/milecopper: --ceiling '1\.000,00': not an amount in euros from 0\.00 to 10000\.00\n/);
    assert.match(called('--help').out, /--ceiling 150,00: ein Monatsdeckel[^]*Weltzeit \(UTC\)/);
    assert.match(called('--help', '--language', 'en').out, /--ceiling 150\.00: a monthly ceiling[^]*those of UTC/);
});

test("README's commands run as they stand, and print the table that it shows", () => {
    const page = fs.readFileSync(path.join(ROOT, 'README.md'), 'utf8');
    const commands = [...page.matchAll(/^ {4}(\.\/milecopper .*)$/gm)].map(([, command]) => command);
    assert.equal(commands.length, 3);
    const printed = commands.map((command) => spawnSync('sh', ['-c', command], { cwd: ROOT, encoding: 'utf8' }));
    for (const { status } of printed) assert.equal(status, 1); // the sample has two trips that are refused
    const table = printed[2].stdout.replace('\ufeff', '').trimEnd().split('\n').map((line) => `    ${line}\n`).join('');
    assert.ok(page.includes(`\n\n${table}\n`), table);
    assert.match(printed[1].stdout, /Anna Berg\n=+\n9 Fahrten +Zusammen 76,51 €\n/);
});
