// What is amiss in the files, by file and line, in words: both languages beside each other. Errors are what has to be
// mended before anything is priced; warnings are what is priced as it stands and should be looked at.
import { dateText, dayText, editionText, moneyText, monthText } from './words.mjs';

const meant = {
    de: (near) => (near ? `; war '${near}' gemeint?` : ''),
    en: (near) => (near ? `; did you mean '${near}'?` : ''),
};

const hours = (minutes) => `${Math.floor(minutes / 60)} h ${minutes % 60} min`;

/** Where another row stands: in a file that is named, where there are several. */
const place = {
    de: ({ file, line }) => (file ? `${file}:${line}` : `Zeile ${line}`),
    en: ({ file, line }) => (file ? `${file}:${line}` : `line ${line}`),
};

/** What stands behind a mistake of a trip that is corrected. */
const CORRECTED = {
    de: ({ name, line }) => ` (berichtigt in ${name}, Zeile ${line})`,
    en: ({ name, line }) => ` (corrected in ${name}, line ${line})`,
};

const MOST_NAMES = 40;

/** Names one behind another; of more than can be looked at how many there are besides. */
const listed = {
    de: (names) => listOf(names, (rest) => ` und ${rest} weitere`),
    en: (names) => listOf(names, (rest) => ` and ${rest} more`),
};

function listOf(names, more) {
    const rest = names.length - MOST_NAMES;
    return names.slice(0, MOST_NAMES).join(', ') + (rest > 0 ? more(rest) : '');
}

/** What new prices mean for windows that are open: of whom. */
const mixed = {
    de: (open) =>
        open.length === 0
            ? 'Kein Fenster ist über das Monatsende hinaus offen, also mischt sich nichts'
            : 'In Fenstern, die über das Monatsende hinaus offen sind, werden die neuen Deckel mit dem verglichen, ' +
              `was nach dem alten Tarif berechnet ist: ${listed.de(open)}`,
    en: (open) =>
        open.length === 0
            ? "No window is open beyond the month's end, so nothing mixes"
            : "In windows that are open beyond the month's end the new caps are compared with what was charged under " +
              `the old tariff: ${listed.en(open)}`,
};

const counted = {
    de: ({ month, trips }) => `${monthText(month, 'de')} (Fahrten: ${trips})`,
    en: ({ month, trips }) => `${monthText(month, 'en')} (trips: ${trips})`,
};

const TEXTS = {
    // a file as a whole
    missing: {
        de: () => 'die Datei fehlt',
        en: () => 'the file is missing',
    },
    encoding: {
        de: () => "teils UTF-8, teils nicht; die Datei bitte als 'CSV UTF-8' speichern",
        en: () => "UTF-8 in parts only; please save the file as 'CSV UTF-8'",
    },
    workbook: {
        de: () => "diese Tabelle ist so nicht lesbar; bitte mit 'Speichern unter' als 'CSV UTF-8' speichern",
        en: () => "this workbook cannot be read as it is; please save it with 'Save as' as 'CSV UTF-8'",
    },
    ansi: {
        de: () => 'kein UTF-8; als Windows-1252 gelesen: stimmen die Umlaute?',
        en: () => 'not UTF-8; read as Windows-1252: are the umlauts right?',
    },
    nul: {
        de: () => "enthält Nullbytes, die in keinem Text vorkommen; die Datei bitte als 'CSV UTF-8' speichern",
        en: () => "has zero bytes, which no text has; please save the file as 'CSV UTF-8'",
    },
    empty: {
        de: () => 'die Datei ist leer; ihre erste Zeile muss die Spalten nennen',
        en: () => 'the file is empty; its first line has to name the columns',
    },
    quote: {
        de: () => 'ein Anführungszeichen beginnt hier und ist nicht geschlossen, oder dahinter steht noch Text',
        en: () => 'a quotation mark opens here and is not closed, or text follows it',
    },
    columnMissing: {
        de: ({ column }) => `die Spalte '${column}' fehlt`,
        en: ({ column }) => `the column '${column}' is missing`,
    },
    columnTwice: {
        de: ({ column }) => `die Spalte '${column}' ist zweimal da`,
        en: ({ column }) => `the column '${column}' is there twice`,
    },
    columnNear: {
        de: ({ column, near }) => `Spalte '${column}': keine solche Spalte${meant.de(near)}`,
        en: ({ column, near }) => `column '${column}': no such column${meant.en(near)}`,
    },
    columnUnknown: {
        de: ({ column }) => `Spalte '${column}': unbekannt, wird ignoriert`,
        en: ({ column }) => `column '${column}': unknown, ignored`,
    },
    fieldCount: {
        de: ({ found, due }) =>
            `${found} Felder statt ${due} wie in der Kopfzeile; ein Komma in einem Feld verlangt Anführungszeichen`,
        en: ({ found, due }) =>
            `${found} fields instead of ${due} as in the header; a comma within a field needs quotation marks`,
    },
    // a field by itself
    blank: {
        de: ({ column }) => `${column} ist leer`,
        en: ({ column }) => `${column} is empty`,
    },
    notNumber: {
        de: ({ column, value, least, most }) => `${column} '${value}': keine ganze Zahl von ${least} bis ${most}`,
        en: ({ column, value, least, most }) => `${column} '${value}': not a whole number from ${least} to ${most}`,
    },
    notAmount: {
        de: ({ column, value, most }) =>
            `${column} '${value}': kein Betrag in Euro von 0,00 bis ${most.replace('.', ',')}`,
        en: ({ column, value, most }) => `${column} '${value}': not an amount in euros from 0.00 to ${most}`,
    },
    notOneOf: {
        de: ({ column, value, allowed }) => `${column} '${value}': erlaubt ist ${allowed.join(', ')}`,
        en: ({ column, value, allowed }) => `${column} '${value}': allowed is ${allowed.join(', ')}`,
    },
    badDate: {
        de: ({ value }) =>
            `date '${value}': kein Datum der Jahre 2000 bis 2099; zu schreiben wie 2026-10-31 oder 31.10.2026`,
        en: ({ value }) =>
            `date '${value}': not a date of the years 2000 to 2099; write it like 2026-10-31 or 31.10.2026`,
    },
    badTime: {
        de: ({ column, value, most }) => `${column} '${value}': keine Uhrzeit von 00:00 bis ${most}`,
        en: ({ column, value, most }) => `${column} '${value}': not a clock time from 00:00 to ${most}`,
    },
    // the nights in which the clock is changed
    hourTwice: {
        de: ({ column, value, offsets: [first, second] }) =>
            `${column} '${value}': diese Uhrzeit gibt es in dieser Nacht zweimal; ` +
            `zu schreiben als ${value}${first} (Sommerzeit) oder ${value}${second} (Winterzeit)`,
        en: ({ column, value, offsets: [first, second] }) =>
            `${column} '${value}': this time comes twice in this night; ` +
            `write it as ${value}${first} (summer time) or ${value}${second} (winter time)`,
    },
    hourNever: {
        de: ({ column, value }) =>
            `${column} '${value}': diese Uhrzeit gab es an diesem Tag nicht; die Uhr wurde vorgestellt`,
        en: ({ column, value }) => `${column} '${value}': this time did not exist on this day; the clock went forward`,
    },
    hourOffset: {
        de: ({ column, value, offsets }) => `${column} '${value}': zu dieser Zeit galt UTC${offsets[0]}`,
        en: ({ column, value, offsets }) => `${column} '${value}': the clock was ${offsets[0]} ahead of UTC then`,
    },
    endsBefore: {
        de: ({ column, value }) => `${column} '${value}': das liegt vor der Abfahrt`,
        en: ({ column, value }) => `${column} '${value}': this is before the departure`,
    },
    // names that stand for something
    noStop: {
        de: ({ column, value, near }) => `${column} '${value}': keine solche Haltestelle${meant.de(near)}`,
        en: ({ column, value, near }) => `${column} '${value}': no such stop${meant.en(near)}`,
    },
    manyStops: {
        de: ({ column, value, ids }) =>
            `${column} '${value}': mehrere Haltestellen heißen so; zu schreiben als ${ids.join(' oder ')}`,
        en: ({ column, value, ids }) => `${column} '${value}': several stops have this name; write ${ids.join(' or ')}`,
    },
    otherStop: {
        de: ({ column, value, edition, other }) =>
            `${column} '${value}': diese Haltestelle hat nur die Fassung des Tarifs ${editionText(other, 'de')} ` +
            `(${other.files.stops}), und die Fahrt wird nach der Fassung ${editionText(edition, 'de')} berechnet`,
        en: ({ column, value, edition, other }) =>
            `${column} '${value}': only the tariff's edition ${editionText(other, 'en')} has this stop ` +
            `(${other.files.stops}), and the trip is priced by the edition ${editionText(edition, 'en')}`,
    },
    tooManyStops: {
        de: ({ found }) => `via: mit Start und Ziel ${found} Haltestellen; mehr als 32 sind nicht erlaubt`,
        en: ({ found }) => `via: ${found} stops with the first and the last; more than 32 are not allowed`,
    },
    noArea: {
        de: ({ column, value, near, areas }) =>
            `${column} '${value}': kein solches Gebiet${areas ? ` in ${areas}` : ''}${meant.de(near)}`,
        en: ({ column, value, near, areas }) =>
            `${column} '${value}': no such area${areas ? ` in ${areas}` : ''}${meant.en(near)}`,
    },
    noLevel: {
        de: ({ value }) => `level '${value}': keine solche Preisstufe; es gibt K, A, B, C und D, oder leer`,
        en: ({ value }) => `level '${value}': no such ticket level; there are K, A, B, C and D, or empty`,
    },
    noAreaLevel: {
        de: ({ value }) => `level '${value}': keine solche Ebene; es gibt state, region und city`,
        en: ({ value }) => `level '${value}': no such level; there are state, region and city`,
    },
    noMember: {
        de: ({ value, count, near, members }) =>
            `member '${value}': steht nicht in ${members}${meant.de(near)} (Fahrten: ${count}, die erste hier)`,
        en: ({ value, count, near, members }) =>
            `member '${value}': not in ${members}${meant.en(near)} (trips: ${count}, the first here)`,
    },
    taken: {
        de: ({ column, value, line }) => `${column} '${value}': schon in Zeile ${line} vergeben`,
        en: ({ column, value, line }) => `${column} '${value}': taken already in line ${line}`,
    },
    // corrections
    tripFileDue: {
        de: ({ files }) => `file ist leer, und Fahrten stehen in mehreren Dateien: ${listed.de(files)}`,
        en: ({ files }) => `file is empty, and trips stand in several files: ${listed.en(files)}`,
    },
    noTripFile: {
        de: ({ value, near }) => `file '${value}': keine solche Datei mit Fahrten${meant.de(near)}`,
        en: ({ value, near }) => `file '${value}': no such file of trips${meant.en(near)}`,
    },
    noTripLine: {
        de: ({ trips, line }) => `line '${line}': in ${trips} steht dort keine Fahrt`,
        en: ({ trips, line }) => `line '${line}': ${trips} has no trip there`,
    },
    correctedTwice: {
        de: ({ trips, line, other }) => `line '${line}' von ${trips} ist schon in Zeile ${other} berichtigt`,
        en: ({ trips, line, other }) => `line '${line}' of ${trips} is corrected already in line ${other}`,
    },
    cancelAlone: {
        de: ({ columns }) => `die Fahrt wird gestrichen; ${columns.join(', ')} muss dann leer sein`,
        en: ({ columns }) => `the trip is cancelled; ${columns.join(', ')} has to be empty then`,
    },
    correctsNothing: {
        de: () => 'hier wird nichts berichtigt: weder cancel noch eine Spalte der Fahrten ist ausgefüllt',
        en: () => 'nothing is corrected here: neither cancel nor a column of the trips is filled in',
    },
    // the tariff
    editionDay: {
        de: ({ value }) =>
            `'${value}' im Namen der Datei ist kein Tag ab 2000-01-02; die zweite Fassung des Tarifs hat dort den ` +
            'Tag, ab dem sie gilt, wie areas-2026-06-01.csv',
        en: ({ value }) =>
            `'${value}' in the file's name is no day from 2000-01-02 on; the tariff's second edition has there the ` +
            'day from which it is valid, like areas-2026-06-01.csv',
    },
    editionTwice: {
        de: ({ day, other }) =>
            day === null
                ? `neben ${other} noch eine Datei ohne Tag im Namen; die zweite Fassung des Tarifs hat dort den Tag, ` +
                  'ab dem sie gilt, wie areas-2026-06-01.csv'
                : `zwei Dateien für die Fassung ab ${dateText(day, 'de')}: ${other} ist die andere`,
        en: ({ day, other }) =>
            day === null
                ? `beside ${other} another file without a day in its name; the tariff's second edition has there the ` +
                  'day from which it is valid, like areas-2026-06-01.csv'
                : `two files for the edition from ${dateText(day, 'en')}: ${other} is the other one`,
    },
    editionThird: {
        de: ({ second }) =>
            `ein dritter Tag: der Tarif hat eine Fassung ab ${dateText('2000-01-01', 'de')} und eine ab ` +
            `${dateText(second, 'de')}, und mehr als zwei Fassungen sind nicht erlaubt`,
        en: ({ second }) =>
            `a third day: the tariff has an edition from ${dateText('2000-01-01', 'en')} and one from ` +
            `${dateText(second, 'en')}, and more than two editions are not allowed`,
    },
    stopsAlone: {
        de: ({ day }) => `zu diesen Haltestellen gehören Gebiete desselben Tages, areas-${day}.csv, und die fehlen`,
        en: ({ day }) => `these stops need areas of the same day, areas-${day}.csv, which are missing`,
    },
    noState: {
        de: () => 'das erste Gebiet muss das Land sein (level state), und nur dieses',
        en: () => 'the first area has to be the state (level state), and no other may',
    },
    notWithin: {
        de: ({ value }) =>
            `within '${value}': eine Region liegt im Land, eine Stadt in einer Region, die vor ihr steht`,
        en: ({ value }) => `within '${value}': a region lies in the state, a city in a region that stands before it`,
    },
    notHere: {
        de: ({ column, where }) => `${column} muss leer sein: nur für ${where.de}`,
        en: ({ column, where }) => `${column} has to be empty: only for ${where.en}`,
    },
    capsMixed: {
        de: () => 'trip_cap und cap_k bis cap_d schließen einander aus',
        en: () => 'trip_cap and cap_k to cap_d exclude each other',
    },
    tariffRefused: {
        de: ({ number, text }) => `der Tarif wird hier abgelehnt (${number}): ${text}`,
        en: ({ number, text }) => `the tariff is refused here (${number}): ${text}`,
    },
    // trips beside each other
    overlaps: {
        de: (other) => `überschneidet sich mit der Fahrt in ${place.de(other)}; wird abgelehnt (10)`,
        en: (other) => `overlaps the trip in ${place.en(other)}; refused (10)`,
    },
    longRide: {
        de: ({ minutes }) => `dauert ${hours(minutes)}; stimmt die Ankunft?`,
        en: ({ minutes }) => `takes ${hours(minutes)}; is the arrival right?`,
    },
    oddYear: {
        de: ({ year }) => `kein anderer Tag liegt im Jahr ${year}; stimmt das Jahr?`,
        en: ({ year }) => `there is no other day in the year ${year}; is the year right?`,
    },
    tripTwice: {
        de: (other) => `dieselbe Fahrt wie in ${place.de(other)}; doppelt eingetragen?`,
        en: (other) => `the same trip as in ${place.en(other)}; entered twice?`,
    },
    refused: {
        de: ({ number, text }) => `wird abgelehnt (${number}): ${text}`,
        en: ({ number, text }) => `refused (${number}): ${text}`,
    },
    nearMembers: {
        de: ({ value, near, ...other }) =>
            `member '${value}': dieselbe Person wie '${near}' in ${place.de(other)}? Sie zählen als zwei`,
        en: ({ value, near, ...other }) =>
            `member '${value}': the same person as '${near}' in ${place.en(other)}? They count as two`,
    },
    nearBook: {
        de: ({ value, near }) => `member '${value}': dieselbe Person wie '${near}' in den Büchern? Sie zählen als zwei`,
        en: ({ value, near }) => `member '${value}': the same person as '${near}' in the books? They count as two`,
    },
    // the books
    booksBroken: {
        de: () => 'das sind keine Bücher, wie sie beim Abschließen entstehen',
        en: () => 'these are not books as they are written when a month is closed',
    },
    booksTwice: {
        de: ({ period, name, other }) =>
            `zweimal Bücher vom ${monthText(period, 'de')}: ${other} und ${name}; nur eine Datei kann gelten`,
        en: ({ period, name, other }) =>
            `books of ${monthText(period, 'en')} twice: ${other} and ${name}; only one file can count`,
    },
    booksMonths: {
        de: ({ under }) =>
            under
                ? 'diese Bücher sind mit einem Monatsdeckel geschrieben und zählen Monate nach Weltzeit (UTC), hier ' +
                  'fehlt er, und Monate zählen nach der Uhr an der Wand: eine Fahrt kurz nach Mitternacht am Ersten ' +
                  'stünde in beiden Monaten und würde zweimal berechnet. Bitte den Monatsdeckel angeben (--ceiling) ' +
                  'oder ohne diese Bücher rechnen, mit allen Fahrten'
                : 'diese Bücher zählen Monate nach der Uhr an der Wand, mit einem Monatsdeckel aber zählen sie nach ' +
                  'Weltzeit (UTC): eine Fahrt kurz nach Mitternacht am Ersten fiele zwischen beide Monate und würde ' +
                  'nie berechnet. Bitte ohne Monatsdeckel (--ceiling) weiterrechnen oder ohne diese Bücher, mit ' +
                  'allen Fahrten',
        en: ({ under }) =>
            under
                ? 'these books were written under a monthly ceiling and count months by UTC; here there is none, and ' +
                  'months go by the clock on the wall: a trip just after midnight on the first would stand in both ' +
                  'months and be priced twice. Please give the ceiling (--ceiling), or go without these books, with ' +
                  'all trips'
                : 'these books count months by the clock on the wall, but under a monthly ceiling months are those ' +
                  'of UTC: a trip just after midnight on the first would fall between both months and never be priced. ' +
                  'Please go on without a ceiling (--ceiling), or without these books, with all trips',
    },
    booksTariff: {
        de: ({ areas }) =>
            'die Bücher gehören zu einem anderen Tarif: seit dem Abschließen sind Zahl, Reihenfolge, id, level, ' +
            `within oder kind der Gebiete anders. Gebiete behalten ihren Platz in ${areas}; neue kommen ans Ende`,
        en: ({ areas }) =>
            'the books belong to another tariff: since the closing the number, order, id, level, within or kind of ' +
            `areas have changed. Areas keep their place in ${areas}; new ones come at the end`,
    },
    booksEdition: {
        de: ({ from }) =>
            `die Bücher gehören zu einem anderen Tarif: sie kennen auch eine Fassung ab ${dateText(from, 'de')}, und ` +
            `die fehlt (areas-${from}.csv)`,
        en: ({ from }) =>
            `the books belong to another tariff: they also know an edition from ${dateText(from, 'en')}, which is ` +
            `missing (areas-${from}.csv)`,
    },
    editionLate: {
        de: ({ from, closed }) =>
            `die Fassung des Tarifs ab ${dateText(from, 'de')} war noch nicht da, als ${monthText(closed, 'de')} ` +
            'abgeschlossen wurde: alle Fahrten bis dahin sind nach der Fassung davor berechnet',
        en: ({ from, closed }) =>
            `the tariff's edition from ${dateText(from, 'en')} was not there yet when ${monthText(closed, 'en')} was ` +
            'closed: all trips up to then are priced by the edition before it',
    },
    booksOldTariff: {
        de: ({ found, due }) =>
            `die Bücher gehören zu einem anderen Tarif (${found.slice(0, 12)}, nicht ${due.slice(0, 12)}). Bücher ` +
            'dieser älteren Form verlangen bis zum nächsten Abschließen areas.csv und stops.csv, wie sie waren',
        en: ({ found, due }) =>
            `the books belong to another tariff (${found.slice(0, 12)}, not ${due.slice(0, 12)}). Books of this ` +
            'older form need areas.csv and stops.csv as they were, until the next closing',
    },
    booksPrices: {
        de: ({ open, moved }) =>
            'seit dem Abschließen haben Gebiete andere Preise oder Deckel, oder neue kamen dazu' +
            `${moved ? ', oder die zweite Fassung hat einen anderen Tag' : ''}. ` +
            'Wenn das so gewollt ist: --new-tariff, auf der Seite der Knopf dafür. ' +
            mixed.de(open),
        en: ({ open, moved }) =>
            'since the closing areas have other prices or caps, or new ones were added' +
            `${moved ? ', or the second edition has another day' : ''}. If that is meant: --new-tariff. ` +
            mixed.en(open),
    },
    newTariff: {
        de: ({ open }) => `neuer Tarif: Fahrten seit dem Abschließen haben die neuen Preise. ${mixed.de(open)}`,
        en: ({ open }) => `a new tariff: trips since the closing have the new prices. ${mixed.en(open)}`,
    },
    booksClosed: {
        de: ({ closed, period }) => `die Bücher sind schon bis ${closed} abgeschlossen, und verlangt ist ${period}`,
        en: ({ closed, period }) => `the books are closed to ${closed} already, and ${period} is asked for`,
    },
    bookUnsound: {
        de: ({ member }) => `das Buch von '${member}' ist beschädigt (4)`,
        en: ({ member }) => `the book of '${member}' is damaged (4)`,
    },
    inBooks: {
        de: ({ count, closed }) =>
            `abgeschlossen bis einschließlich ${closed}: Fahrten bis dahin stehen in den Büchern und werden nicht ` +
            `noch einmal berechnet (Fahrten: ${count}, die erste hier)`,
        en: ({ count, closed }) =>
            `closed up to and including ${closed}: trips up to then are in the books and are not priced again ` +
            `(trips: ${count}, the first here)`,
    },
    lateTrip: {
        de: ({ member, month, books }) =>
            `'${member}', nachgereicht oder geändert: die Fahrt liegt im abgeschlossenen ${monthText(month, 'de')}, ` +
            `dessen Bücher (${books}) sie nicht so haben, und wird hier nicht berechnet. './milecopper correct' ` +
            'berechnet sie als Nachtrag',
        en: ({ member, month, books }) =>
            `'${member}', late or changed: the trip lies in ${monthText(month, 'en')}, which is closed and whose ` +
            `books (${books}) do not have it so, and is not priced here. './milecopper correct' prices it as a ` +
            'supplement',
    },
    supplement: {
        de: ({ member, month, books }) =>
            `'${member}', nachgereicht oder geändert: die Fahrt liegt im abgeschlossenen ${monthText(month, 'de')} ` +
            `(${books}), und was sich dort ändert, wird als Nachtrag berechnet`,
        en: ({ member, month, books }) =>
            `'${member}', late or changed: the trip lies in ${monthText(month, 'en')}, which is closed (${books}), ` +
            'and what changes there is priced as a supplement',
    },
    supplementUnkept: {
        de: ({ month, books }) =>
            `kein Nachtrag möglich: die Fahrt liegt im abgeschlossenen ${monthText(month, 'de')}, und ${books} hat ` +
            'noch keine Fahrten, also auch nicht, was für sie berechnet wurde',
        en: ({ month, books }) =>
            `no supplement is possible: the trip lies in ${monthText(month, 'en')}, which is closed, and ${books} ` +
            'keeps no trips, so it does not say what was charged for it',
    },
    supplementBefore: {
        de: ({ member, closed, before }) =>
            `'${member}': für den Nachtrag fehlen die Bücher, von denen ${closed} ausging: books-${before}.json`,
        en: ({ member, closed, before }) =>
            `'${member}': for the supplement the books are missing that ${closed} went on from: books-${before}.json`,
    },
    supplementTariff: {
        de: ({ member, before }) =>
            `'${member}': kein Nachtrag möglich: ${before} gehört zu einem Tarif mit anderen Gebieten`,
        en: ({ member, before }) =>
            `'${member}': no supplement is possible: ${before} belongs to a tariff with other areas`,
    },
    supplementApart: {
        de: ({ member, closed, before }) =>
            `'${member}': kein Nachtrag möglich: ${closed} geht nicht von ${before} aus, oder hat keine Fahrten`,
        en: ({ member, closed, before }) =>
            `'${member}': no supplement is possible: ${closed} does not go on from ${before}, or keeps no trips`,
    },
    supplementMissing: {
        de: ({ member, closed, count, first }) =>
            `'${member}': kein Nachtrag möglich: in ${closed} stehen Fahrten, die heute fehlen (${count}, die erste ` +
            `vom ${dateText(first, 'de')}, ${first.slice(11, 16)}). Alle Fahrten seit den Büchern davor gehören ` +
            'dazu, wie sie waren; geändert und gestrichen wird in corrections.csv',
        en: ({ member, closed, count, first }) =>
            `'${member}': no supplement is possible: ${closed} has trips that are missing today (${count}, the first ` +
            `of ${dateText(first, 'en')}, ${first.slice(11, 16)}). All trips since the books before have to be ` +
            'there as they were; they are changed and cancelled in corrections.csv',
    },
    supplementPrices: {
        de: ({ member, month, charged, due }) =>
            `'${member}': die Fahrten, die für ${monthText(month, 'de')} in den Büchern stehen, kosten nach dem ` +
            `heutigen Tarif ${moneyText(due, 'de')}, und berechnet wurden ${moneyText(charged, 'de')}; auch dieser ` +
            'Unterschied steckt im Nachtrag',
        en: ({ member, month, charged, due }) =>
            `'${member}': the trips that the books have of ${monthText(month, 'en')} cost ${moneyText(due, 'en')} ` +
            `under today's tariff, and ${moneyText(charged, 'en')} was charged; this difference, too, is in the ` +
            'supplement',
    },
    lostWindows: {
        de: ({ names, month, before, cents }) =>
            `vom ${monthText(before, 'de')} sind weder Fahrten noch Bücher da, und in den ersten 24 Stunden des ` +
            `${monthText(month, 'de')} fahren schon ${listed.de(names)}. War ein Fenster vom Vormonat noch offen, so ` +
            'beginnt es hier neu, und seine Deckel werden zweimal bezahlt: diese Fahrten kosten zusammen ' +
            `${moneyText(cents, 'de')}, und ein Teil davon kann zu viel sein. Das lässt sich vermeiden: ` +
            `books-${before}.json oder die Fahrten des Vormonats dazugeben`,
        en: ({ names, month, before, cents }) =>
            `of ${monthText(before, 'en')} there are neither trips nor books, and in the first 24 hours of ` +
            `${monthText(month, 'en')} these ride already: ${listed.en(names)}. Where a window of the month before ` +
            'was still open, it begins anew here, and its caps are paid twice: of these trips, ' +
            `${moneyText(cents, 'en')} in all, some may be too much. To avoid it, add books-${before}.json or the ` +
            'trips of the month before',
    },
    beforeBooks: {
        de: ({ until }) => `beginnt vor dem letzten Check-out in den Büchern (${until}); wird abgelehnt (10)`,
        en: ({ until }) => `begins before the last check-out in the books (${until}); refused (10)`,
    },
    // closing a month
    closeTwice: {
        de: ({ period, file }) =>
            `${monthText(period, 'de')} ist schon abgeschlossen (${file}): ein Monat wird einmal abgeschlossen`,
        en: ({ period, file }) => `${monthText(period, 'en')} is closed already (${file}): a month is closed once`,
    },
    closeFuture: {
        de: ({ period, today }) =>
            `${monthText(period, 'de')} liegt in der Zukunft (heute ist ${dayText(today, 'de')})`,
        en: ({ period, today }) => `${monthText(period, 'en')} lies in the future (today is ${dayText(today, 'en')})`,
    },
    closeGap: {
        de: ({ period, months }) =>
            `vor ${monthText(period, 'de')} ist noch nicht abgeschlossen: ${months.map(counted.de).join(', ')}`,
        en: ({ period, months }) =>
            `before ${monthText(period, 'en')} these are not closed yet: ${months.map(counted.en).join(', ')}`,
    },
    closeEarlier: {
        de: ({ later }) => `${monthText(later, 'de')} ist schon abgeschlossen, und seine Bücher wüssten hiervon nichts`,
        en: ({ later }) => `${monthText(later, 'en')} is closed already, and its books would know nothing of this`,
    },
    closeSupplement: {
        de: ({ months }) =>
            `für ${months.map((month) => monthText(month, 'de')).join(', ')} gibt es einen Nachtrag, und solange die ` +
            'Bücher nicht ersetzt sind (--reopen), kommt er im nächsten Monat noch einmal',
        en: ({ months }) =>
            `there is a supplement for ${months.map((month) => monthText(month, 'en')).join(', ')}, and until the ` +
            'books are replaced (--reopen), it will come again next month',
    },
    closeRunning: {
        de: ({ period, today }) =>
            `${monthText(period, 'de')} ist noch nicht vorbei (heute ist ${dayText(today, 'de')}); ` +
            'was danach noch kommt, wird nicht mehr berechnet',
        en: ({ period, today }) =>
            `${monthText(period, 'en')} is not over yet (today is ${dayText(today, 'en')}); ` +
            'what is still to come will not be priced',
    },
    // what is no longer told one by one
    further: {
        de: ({ kind, count }) => `und ${count} weitere ${KINDS.de[kind]} in dieser Datei, nicht einzeln genannt`,
        en: ({ kind, count }) => `and ${count} more ${KINDS.en[kind]} in this file, not listed`,
    },
    // what the desk finds of itself
    disagreement: {
        de: ({ member, what }) =>
            `die Summen von '${member}' stimmen nicht mit dem Buch überein (${what}); nichts wird ausgegeben`,
        en: ({ member, what }) => `the sums of '${member}' do not agree with the book (${what}); nothing is written`,
    },
};

/** A mistake in a language's words. */
export function mistakeText({ key, values }, language) {
    return TEXTS[key][language](values);
}

const KINDS = {
    de: { error: 'Fehler', warning: 'Warnungen' },
    en: { error: 'errors', warning: 'warnings' },
};

const MOST_TOLD = 1000; // errors, and as many warnings; of what comes behind them only the number is told

/**
 * Collects the mistakes of all files. `error` and `warning` answer null, for whoever has no value then. `files` are the
 * files' names in the order in which their mistakes are told. `strict`: warnings are errors.
 */
export class Mistakes {
    constructor(language, files, strict = false) {
        this.corrections = null; // once the trips are read: where a mistake of a corrected one comes from
        this.language = language;
        this.files = files;
        this.strict = strict;
        this.counts = { error: 0, warning: 0 };
        this.told = [];
        this.further = new Map(); // by kind and file, with the first line that is not told
    }

    note(kind, file, line, key, values = {}) {
        this.counts[kind] += 1;
        if (this.counts[kind] <= MOST_TOLD) this.told.push(this.worded({ file, line, kind, key, values }));
        else this.noteFurther(kind, file, line);
        return null;
    }

    noteFurther(kind, file, line) {
        const key = `${kind} ${file}`;
        if (!this.further.has(key)) this.further.set(key, { file, line, kind, count: 0 });
        this.further.get(key).count += 1;
    }

    worded(mistake) {
        const { name, at } = this.corrections ?? {};
        const line = at?.(mistake.file, mistake.line);
        const behind = line === undefined ? '' : CORRECTED[this.language]({ name, line });
        return { ...mistake, text: mistakeText(mistake, this.language) + behind };
    }

    error(file, line, key, values) {
        return this.note('error', file, line, key, values);
    }

    warning(file, line, key, values) {
        return this.note(this.strict ? 'error' : 'warning', file, line, key, values);
    }

    count(kind) {
        return this.counts[kind];
    }

    /** All that are told, file by file and by line. */
    sorted() {
        const rank = new Map(this.files.map((file, i) => [file, i]));
        const rest = [...this.further.values()].map(({ file, line, kind, count }) => {
            return this.worded({ file, line, kind, key: 'further', values: { kind, count } });
        });
        return [...this.told, ...rest].sort((a, b) => rank.get(a.file) - rank.get(b.file) || a.line - b.line);
    }
}

/** A mistake as one line: `trips.csv:7: from 'Muenster Hbf': no such stop; did you mean 'Münster Hbf'?` */
export function mistakeLine({ file, line, kind, text }, language) {
    return `${file}:${line}: ${kind === 'warning' ? WARNING[language] : ''}${text}`;
}

const WARNING = { de: 'Warnung: ', en: 'warning: ' };
