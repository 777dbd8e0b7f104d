// Statements: what they say, as text and as HTML, and the picture of a window.
import assert from 'node:assert/strict';
import { test } from 'node:test';
import { Disagreement } from '../account.mjs';
import { booksText } from '../books.mjs';
import { capsOf } from '../caps.mjs';
import { LABELS } from '../page/labels.mjs';
import { statementHtml, statementsDocument } from '../sheets.mjs';
import { agreeStatements, membersOf, statementOf, statementText } from '../statement.mjs';
import { LANGUAGES, STATEMENT, capText, dayText, moneyText, refusalText } from '../words.mjs';
import { TRIPS, engine, run, sample } from './support.mjs';

/** The desk's result of these trips, each a row without the empty fields at its end. */
function settled(trips, options) {
    const rows = trips.map((row) => row + ','.repeat(12 - row.split(',').length));
    const result = run(TRIPS + rows.join('\n'), options);
    assert.deepEqual(result.mistakes.filter(({ kind }) => kind === 'error'), []);
    return result;
}

const textsOf = (result, language) => membersOf(result).map((member) => statementText(member, result, language));

const NIGHT = [
    'Eva,2026-10-31,22:40,23:55,Münster Hbf,Bielefeld Hbf',
    'Eva,2026-11-01,05:30,06:45,Bielefeld Hbf,Münster Hbf',
];
const BACK = 'Eva,2026-10-20,17:30,19:05,Dortmund Hbf,Dortmund Hbf,Duisburg Hbf,,,,1,1';
const EARLY = 'Eva,2026-10-20,19:00,19:30,Dortmund Hbf,Essen Hbf,,1,B';

test('a statement as text', () => {
    const result = settled([BACK, EARLY, ...NIGHT], { period: '2026-10' });
    const hash = result.tariff.hash;
    assert.deepEqual(textsOf(result, 'de'), [
        `Abrechnung Oktober 2026
Eva
================================================================================
2 Fahrten, 1 abgelehnt                                          Zusammen 66,16 €

24-Stunden-Fenster ab Di 20.10.2026, 17:30 bis Mi 21.10.2026, 17:30
--------------------------------------------------------------------------------
 1. Di 20.10.2026, 17:30 – 19:05
    Dortmund Hbf → Dortmund Hbf
    über Duisburg Hbf, 2. Klasse
    Hin und zurück, als zwei Teile berechnet
    Teil 1: Dortmund Hbf → Duisburg Hbf (VRR, 49 km, 95 min)
        Mitglied                                                         15,94 €
        Kind 1                                                            7,97 €
        Fahrrad 1                                                         4,40 €
    Teil 2: Duisburg Hbf → Dortmund Hbf (VRR, 49 km)
        Mitglied                                                         12,96 €
            Preis 15,94 €, abgezogen 2,98 €: 24-Stunden-Deckel VRR, 2. Klasse
        Kind 1                                                            6,48 €
            Preis 7,97 €, abgezogen 1,49 €: 24-Stunden-Deckel VRR, 2. Klasse
        Fahrrad 1                                                         0,00 €
 2. Di 20.10.2026, 19:00 – 19:30
    Dortmund Hbf → Essen Hbf
    1. Klasse, Preisstufe B
    Abgelehnt: Die Fahrt beginnt, bevor die vorige zu Ende war. (Zeile 3 der
    Fahrten)
Summe                                                                    47,75 €
Wie voll die Deckel am Ende sind:
    Mitglied: NRW, 2. Klasse                                 28,90 € von 30,00 €
    Mitglied: VRR, 2. Klasse                           voll, 28,90 € von 28,90 €
    Kind 1: NRW, 2. Klasse                                   14,45 € von 15,00 €
    Kind 1: VRR, 2. Klasse                             voll, 14,45 € von 14,45 €

24-Stunden-Fenster ab Sa 31.10.2026, 22:40 bis So 01.11.2026, 22:40
--------------------------------------------------------------------------------
Das Fenster reicht in den November 2026; dessen Fahrten stehen in der nächsten
Abrechnung.
 1. Sa 31.10.2026, 22:40 – 23:55
    Münster Hbf → Bielefeld Hbf
    2. Klasse · Westfalen, 63 km, 75 min
        Mitglied                                                         18,41 €
Summe                                                                    18,41 €
Wie voll die Deckel am Ende sind:
    Mitglied: NRW, 2. Klasse                                 18,41 € von 30,00 €
    Mitglied: Westfalen, 2. Klasse                           18,41 € von 25,00 €

--------------------------------------------------------------------------------
Tarif NRW: 10 Gebiete, 29 Haltestellen
Prüfsumme des Tarifs: ${hash}
Berechnet mit Milecopper ${engine.version}
`,
    ]);
});

test('a night over the month’s end is one window: the next statement shows both trips and counts one', () => {
    const result = settled(NIGHT, { period: '2026-11' });
    assert.deepEqual(textsOf(result, 'en'), [
        `Statement for November 2026
Eva
================================================================================
1 trip                                                               Total €6.59

24-hour window from Sat 31 Oct 2026, 22:40 to Sun 1 Nov 2026, 22:40
--------------------------------------------------------------------------------
 1. Sat 31 Oct 2026, 22:40 – 23:55
    Münster Hbf → Bielefeld Hbf
    second class, counts in October 2026 · Westfalen, 63 km, 75 min
        Member                                                            €18.41
 2. Sun 1 Nov 2026, 05:30 – 06:45
    Bielefeld Hbf → Münster Hbf
    second class · Westfalen, 63 km, 75 min
        Member                                                             €6.59
            Price €18.41, taken off €11.82: 24-hour cap of Westfalen, second
            class
Sum in November 2026                                                       €6.59
How full the caps are at the end:
    Member: NRW, second class                                   €25.00 of €30.00
    Member: Westfalen, second class                       full, €25.00 of €25.00

--------------------------------------------------------------------------------
Tariff NRW: 10 areas, 29 stops
The tariff's hash: ${result.tariff.hash}
Computed with Milecopper ${engine.version}
`,
    ]);
});

test('from books the same window goes on, and the statement says that it has earlier trips', () => {
    const books = booksText(settled(NIGHT.slice(0, 1), { period: '2026-10' }));
    const [text] = textsOf(settled(NIGHT.slice(1), { period: '2026-11', books }), 'de');
    assert.match(text, /Fenster ab Sa 31\.10\.2026, 22:40 .*\n-+\nDas Fenster hat frühere Fahrten/);
    assert.match(text, /voll, 25,00 € von 25,00 €/);
    assert.match(text, /^1 Fahrt +Zusammen 6,59 €$/m);
});

test('the night with two half past twos names the season, and an arrival after midnight its day', () => {
    const result = settled([
        'Eva,2026-10-14,23:48,24:21,Bielefeld Hbf,Paderborn Hbf',
        'Eva,2026-10-25,02:50+02:00,02:10,Dortmund Hbf,Dortmund Betriebswerk',
    ]);
    const [text] = textsOf(result, 'de');
    assert.match(text, /^ 1\. Mi 14\.10\.2026, 23:48 – Do 15\.10\.2026, 00:21$/m);
    assert.match(text, /^ 1\. So 25\.10\.2026, 02:50 Sommerzeit – 02:10 Winterzeit$/m);
    assert.match(text, /ab So 25\.10\.2026, 02:50 Sommerzeit bis Mo 26\.10\.2026, 01:50$/m);
    assert.match(text, /^Abrechnung aller Fahrten$/m);
});

test('a mistap costs nothing, leaves the window and says why; a minute more, and it is a ride', () => {
    const mistap = 'Eva,2026-10-20,19:10,19:12,Dortmund Hbf,Dortmund Hbf';
    const result = settled([BACK, mistap, mistap.replace('19:12', '19:13')]);
    const [member] = result.members;
    assert.deepEqual(member.entries.map(({ accepted, refusal }) => (accepted ? 0 : refusal.number)), [0, 17, 0]);
    const words = LANGUAGES.map((language) => textsOf(result, language)[0].replace(/\s+/g, ' '));
    assert.match(words[0], /Abgelehnt: Ein- und gleich wieder ausgecheckt, .*; das kostet nichts\. \(Zeile 3 der Fahrten\)/);
    assert.match(words[1], /Refused: Checked in and straight out again, .*; it costs nothing\. \(line 3 of the trips\)/);
    assert.deepEqual(settled([BACK, mistap]).members[0].book, settled([BACK]).members[0].book);
});

test('a refused trip outside of every window stands under a heading of its own', () => {
    const result = settled(['Eva,2026-10-17,12:15,12:26,Baesweiler Setterich,Baesweiler Reyplatz,,1']);
    const [text] = textsOf(result, 'de');
    assert.match(text, /^Außerhalb der 24-Stunden-Fenster$/m);
    const words = text.replace(/\s+/g, ' ');
    assert.match(words, /Abgelehnt: In Baesweiler gibt es keine 1\. Klasse\. \(Zeile 2 der Fahrten\) Summe 0,00 €/);
});

test('the HTML says what the text says', () => {
    const result = run(sample('trips.csv'), { period: '2026-10' });
    assert.equal(membersOf(result).length, 4);
    for (const member of membersOf(result)) {
        const html = statementHtml(member, result, 'de');
        const { total, windows, foot } = statementOf(member, result, 'de');
        const said = [member.name, total, ...foot.tariff, foot.hash, foot.version];
        for (const text of said) assert.ok(html.includes(text), text);
        assert.equal([...html.matchAll(/<svg class="picture" /g)].length, windows.length);
        const ridersOf = (window) => window.trips.flatMap(({ parts }) => parts.flatMap(({ riders }) => riders));
        const due = windows.flatMap((window) => [...ridersOf(window).map(({ charge }) => charge), window.total]);
        assert.deepEqual([...html.matchAll(/<td class="charge">([^<]+)<\/td>/g)].map(([, charge]) => charge), due);
    }
    assert.match(statementsDocument(result, 'de', ''), /<title>Abrechnung Oktober 2026<\/title>/);
});

test('nothing that stands in a file is taken for a mark of HTML', () => {
    const name = `<img src=x onerror="alert('1')">&`;
    const result = settled([`"${name.replaceAll('"', '""')}",2026-10-31,22:40,23:55,Münster Hbf,Bielefeld Hbf`]);
    const html = statementsDocument(result, 'de', '');
    assert.ok(!html.includes('<img'));
    assert.ok(html.includes('&lt;img src=x onerror=&quot;alert(&#39;1&#39;)&quot;&gt;&amp;'));
});

test('a statement whose total is not that of the wages is none', () => {
    const result = settled(NIGHT);
    const wages = result.wages.map((row) => ({ ...row, cents: row.cents + 1 }));
    assert.throws(() => statementText(result.members[0], { ...result, wages }, 'de'), Disagreement);
    assert.throws(() => agreeStatements({ ...result, wages }), Disagreement);
    agreeStatements(result);
});

test('a cap is named once a window, and a letter leads to it from each amount that it took off', () => {
    const result = settled([BACK, 'Eva,2026-10-20,20:00,21:00,Dortmund Hbf,Essen Hbf,,1,,1,2']);
    const html = statementHtml(result.members[0], result, 'de');
    const [window] = statementOf(result.members[0], result, 'de').windows;
    const riders = window.trips.flatMap(({ parts }) => parts.flatMap((part) => part.riders)).filter(({ cap }) => cap);
    assert.ok(riders.length > new Set(riders.map(({ cap }) => cap)).size, 'a cap cuts twice');
    for (const { words } of window.caps) assert.equal(html.split(`${words}</dt>`).length, 2, words);
    assert.equal(html.match(/24-Stunden-Deckel/g).length, window.caps.length);
    const marks = [...html.matchAll(/€<sup>(\w)<\/sup>/g)].map(([, mark]) => mark);
    const meant = new Map([...html.matchAll(/<dt><sup>(\w)<\/sup> ([^<]*)/g)].map(([, mark, words]) => [mark, words]));
    assert.deepEqual(marks.map((mark) => meant.get(mark)), riders.map(({ cap }) => cap));
    const { fills } = window.caps.find(({ words }) => words.endsWith('NRW, alle Klassen'));
    assert.deepEqual(fills.map(({ who }) => who), ['Mitglied', 'Erwachsene/r 1', 'Kind 1', 'Kind 2']);
});

test('the picture: a bar for each trip and how full each cap is, at any width, and words for who cannot see it', () => {
    const result = settled([...NIGHT, 'Eva,2026-11-01,06:00,06:10,Bielefeld Hbf,Bielefeld Rathaus']);
    const html = statementHtml(result.members[0], result, 'de');
    const svg = html.match(/<svg[^]*?<\/svg>/)[0];
    assert.match(svg, /role="img" width="100%"/);
    assert.match(svg, /<title>Die 24 Stunden des Fensters mit den Fahrten<\/title>/);
    assert.ok(!/NaN|undefined|Infinity/.test(html));
    const bars = svg.matchAll(/<rect class="(\w+)" x="([\d.]+)%" y="\d+" width="([\d.]+)%" height="8"/g);
    assert.deepEqual([...bars].map(([, state, x, width]) => [state, x, width]), [
        ['priced', '0.00', '5.21'], // 75 of 1,440 minutes
        ['cut', '28.47', '5.21'], // 410 minutes later
        ['refused', '30.56', '0.69'],
    ]);
    assert.match(svg, /<text x="5\.56%" y="\d+">So<\/text>/); // midnight, 80 minutes on
    const level = /<dd><span>([^<]*)<\/span><svg class="level".*?"([\d.]+)%" height="100%" rx="2"\/><\/svg><span>(.*?)</g;
    assert.deepEqual([...html.matchAll(level)].map(([, ...own]) => own), [
        ['Mitglied', '83.33', '25,00\u00a0€ von 30,00\u00a0€'],
        ['Mitglied', '100.00', 'voll, 25,00\u00a0€'],
    ]);
    const legend = html.match(/<footer>[^]*<\/footer>/)[0];
    const told = [...legend.matchAll(/class="(priced|cut|refused)"/g)].map(([, state]) => state);
    assert.deepEqual(told, ['priced', 'cut', 'refused']);
});

test('a window of very many trips has a picture, too', () => {
    const two = (number) => String(number).padStart(2, '0');
    const clock = (minute) => `${two(Math.floor(minute / 60))}:${two(minute % 60)}`;
    const trip = (_, i) => `Eva,2026-10-06,${clock(5 * i)},${clock(5 * i + 4)},Hamm Hbf,Hamm Betriebshof`;
    const result = settled(Array.from({ length: 250 }, trip));
    const html = statementHtml(result.members[0], result, 'en');
    assert.equal([...html.matchAll(/<tbody class="trip/g)].length, 250);
});

test('what the caps come to is the library’s: the examples of docs/RULES.md', () => {
    const half = { first: 50, child: 50 };
    const areas = [550, 2890, null, 0].map((dayCap) => ({ dayCap, ...half }));
    assert.deepEqual(capsOf(engine, areas), [
        { adult: { second: 550, all: 825 }, child: { second: 275, all: 413 } },
        { adult: { second: 2890, all: 4335 }, child: { second: 1445, all: 2168 } },
        null,
        { adult: { second: 0, all: 0 }, child: { second: 0, all: 0 } },
    ]);
    const [most] = capsOf(engine, [{ dayCap: 60000, first: 100, child: 0 }]);
    assert.deepEqual(most, { adult: { second: 60000, all: 120000 }, child: { second: 60000, all: 120000 } });
});

test('words: both languages say the same things', () => {
    const keys = (words) =>
        Object.entries(words).flatMap(([key, word]) => (typeof word === 'object' ? [key, keys(word)] : [key]));
    for (const words of [LABELS, STATEMENT]) assert.deepEqual(keys(words.de), keys(words.en));
    for (const language of LANGUAGES) {
        const texts = [...Array.from({ length: 17 }, (_, i) => i + 1), 22].map((i) => refusalText(i, language));
        assert.equal(new Set(texts).size, 18);
        for (const text of texts) assert.match(text, /^\p{Lu}.*\.$/u);
        for (const text of texts) assert.doesNotMatch(text, /(Nummer|number) \d/);
    }
    assert.equal(capText('Westfalen', 2, 'en'), '24-hour cap of Westfalen, second class');
    assert.equal(capText('NRW', 1, 'de'), '24-Stunden-Deckel NRW, alle Klassen');
    assert.deepEqual(LANGUAGES.map((language) => moneyText(123456, language)), ['1.234,56\u00a0€', '€1,234.56']);
    const day = LANGUAGES.map((language) => dayText('2028-02-29T00:00', language));
    assert.deepEqual(day, ['Di 29.02.2028', 'Tue 29 Feb 2028']);
});
