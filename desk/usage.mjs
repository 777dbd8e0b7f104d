// What the command says of itself and of a call, both languages beside each other.

export const USAGE = `usage: ./milecopper check|settle|statement|wages|correct|close [FOLDER] [--period 2026-10|open]
                    [--format csv|json] [--out FOLDER] [--member NAME] [--language de|en]
                    [--areas FILE]... [--stops FILE]... [--trips FILE]... [--books FILE]...
                    [--members FILE] [--corrections FILE] [--ceiling 150,00] [--strict] [--new-tariff]
                    [--force] [--reopen] [--today 2026-11-03]
       ./milecopper salvage ROLL [--out FOLDER] [--format csv] [--language de|en]
`;

export const HELP = {
    de: `
check      nennt jeden Fehler in den Dateien, mit Zeile
settle     jeder einzelne Betrag: eine Tabelle
statement  eine Abrechnung je Mitglied, als Text
wages      für das Lohnbüro: eine Zeile je Mitglied und Monat
           settle, statement und wages mit --member NAME: nur von diesem Mitglied
correct    was Berichtigungen (corrections.csv) ändern: vorher, nachher, Unterschied; was sie und nachgereichte Fahrten
           in abgeschlossenen Monaten ändern, als Nachtrag, dann mit Lohnliste; --reopen ersetzt deren Bücher
close      schließt den Monat ab und schreibt die Bücher, books-2026-10.json; einmal je Monat
salvage    rettet aus einer zerrissenen Rolle die ganzen Fahrten nach kept.bin, im Ordner --out oder hier, und nennt die
           verlorenen Bytes; --format csv: als Tabelle offset;length

Im Ordner (ohne Angabe: hier) liegen areas.csv, stops.csv und trips.csv, dazu gegebenenfalls die Bücher; die des
letzten Abschlusses vor dem Monat gelten. Einzelne Dateien lassen sich stattdessen nennen. Die Fahrten können in
mehreren Dateien stehen: genommen wird jede trips*.csv des Ordners, oder --trips mehrmals. Statt einer CSV darf es
eine Mappe sein, .xlsx, deren erstes Blatt gelesen wird. Eine members.csv sagt, wer wer ist; die Lohnliste hat dann
die Personalnummern. Eine corrections.csv berichtigt Zeilen der Fahrten; alles gilt dann den berichtigten. Wechselt
der Tarif, so steht die neue Fassung in areas-2026-06-01.csv, mit dem Tag, ab dem sie gilt, und wenn nötig in
stops-2026-06-01.csv; oder --areas und --stops werden zweimal genannt, die neue Fassung mit dem Tag im Namen. --period
open ist der Monat, der offen ist: der erste mit Fahrten hinter den letzten Büchern. --out schreibt Dateien, statt zu
drucken. --strict: auch was nur zweifelhaft ist, eine Warnung also, gilt als Fehler. --new-tariff: Gebiete haben seit
dem Abschließen andere Preise oder Deckel, und das ist so gewollt. --force schließt auch einen Monat ab, der in der
Zukunft liegt oder frühere offen lässt. --today: ein anderes Datum als das der Uhr.
--ceiling 150,00: ein Monatsdeckel von 0,00 bis 10000,00 Euro; von keinem Mitglied wird im Monat mehr eingezogen. Monate
sind dann die der Weltzeit (UTC), auch in den Büchern, und von diesen geht es nur mit einem Monatsdeckel weiter.
Der Rechenkern wird beim ersten Mal gebaut, was ihn beweist und einige Minuten dauert.

Status 0: alle Fahrten sind berechnet. 1: eine Fahrt wurde abgelehnt. 2: Fehler in Dateien oder Aufruf; dann wird
nichts geschrieben. Bei salvage: 0: nichts ist verloren. 1: es fehlt etwas. 2: die Rolle ist zu lang, oder eine Datei
lässt sich nicht lesen oder schreiben; dann gibt es keine kept.bin.
`,
    en: `
check      tells every mistake in the files, with its line
settle     every single charge: a table
statement  a statement for each member, as text
wages      for the wage office: a row for each member and month
           settle, statement and wages with --member NAME: of this member only
correct    what corrections (corrections.csv) change: before, after, difference; what they and late trips change in
           closed months, as supplements, and then the wages, too; --reopen replaces the books of these months
close      closes the month and writes the books, books-2026-10.json; once a month
salvage    keeps the whole trips of a torn roll in kept.bin, in the folder --out or here, and says which bytes are lost;
           --format csv: as a table offset;length

The folder (none: the present one) holds areas.csv, stops.csv and trips.csv and, if there are, the books; those of the
last closing before the month count. Single files can be named instead. The trips may stand in several files: every
trips*.csv of the folder is taken, or --trips more than once. Instead of a CSV there may be a workbook, .xlsx, of
which the first sheet is read. A members.csv says who is who; the wages then have the personnel numbers. A
corrections.csv corrects lines of the trips; all is then of the corrected ones. Where the tariff changes, its new
edition is areas-2026-06-01.csv, with the day from which it is valid, and if need be stops-2026-06-01.csv; or --areas
and --stops are named twice, the new edition with the day in its name. --period open is the month that is open: the
first with trips behind the last books. --out writes files instead of printing. --strict: warnings are errors.
--new-tariff: areas have other prices or caps since the closing, and that is meant. --force closes a month, too, that
lies in the future or leaves earlier ones open. --today: another date than the clock's.
--ceiling 150.00: a monthly ceiling of 0.00 to 10000.00 euros; of no member more is collected in a month. Months are
those of UTC then, in the books, too, from which one goes on under a ceiling only.
The engine is built the first time, which proves it and takes some minutes.

Status 0: all trips are priced. 1: a trip is refused. 2: mistakes in files or call; nothing is written then. Of salvage:
0: nothing is lost. 1: something is. 2: the roll is too long, or a file cannot be read or written; there is no kept.bin.
`,
};

const told = (doubts) => doubts.map(({ text }) => text).join('; ');

export const WORDS = {
    de: {
        action: (word) => `'${word}' ist keine Aufgabe`,
        none: 'eine Aufgabe fehlt',
        many: 'nur ein Ordner kann genannt werden',
        allowed: (option, words) => `--${option}: erlaubt ist ${words.join(', ')}`,
        month: (word) => `--period '${word}': kein Monat wie 2026-10`,
        date: (word) => `--today '${word}': kein Datum wie 2026-11-03`,
        due: 'zum Abschließen gehört --period',
        one: (words) => `--member gehört nur zu ${words.join(', ')}`,
        reopen: '--reopen gehört nur zu correct',
        openOnly: (month) =>
            `${month} ist abgeschlossen: was sich dort ändert, ist ein Nachtrag und kommt mit dem offenen Monat ` +
            '(--period open) oder ohne --period',
        unopened: ({ name, member }) =>
            `nicht ersetzt: in ${name} wäre auch '${member}' anders, ohne Nachtrag; fehlen heute Fahrten, oder ist ` +
            'der Tarif ein anderer?',
        corrections: (file, { corrected, cancelled }) =>
            `Berichtigungen: ${file} (berichtigte Fahrten: ${corrected}, gestrichene: ${cancelled.length})`,
        folder: (folder, why) => `der Ordner ${folder} ist nicht lesbar: ${why}`,
        unread: (files) => `nicht lesbar: ${files.map(({ place, why }) => `${place} (${why})`).join(', ')}`,
        there: (file) => `${file} ist schon da: ein Monat wird einmal abgeschlossen`,
        doubts: (doubts) => `nicht abgeschlossen: ${told(doubts)}. Ist es so gemeint: --force`,
        member: (name) => `kein Mitglied '${name}' mit Fahrten in diesem Zeitraum`,
        building: 'der Rechenkern wird gebaut und dabei bewiesen; das dauert einige Minuten',
        proved: (crate, all, name) => `Teil ${crate} von ${all} ist bewiesen, ${name}`,
        unbuilt: 'der Rechenkern wurde nicht gebaut',
        engineless: (why) => `der Rechenkern lässt sich nicht laden: ${why}`,
        versionless: (why) => `die Versionsnummer in include/milecopper.h ist nicht lesbar: ${why}`,
        unprinted: (why) => `die Ausgabe ist nicht zu schreiben: ${why}`,
        unwritten: (folder, why) => `in ${folder} kann nicht geschrieben werden: ${why}`,
        trips: (files) => `Fahrten: ${files.join(', ')}`,
        books: (file) => `Bücher: ${file}`,
        wrote: (file) => `geschrieben: ${file}`,
        progress: (done, all) => `${done} von ${all} Fahrten`,
        found: ({ errors, warnings }) => `Fehler: ${errors}, Warnungen: ${warnings}`,
        priced: (trips, members) => `berechnete Fahrten: ${trips}, Mitglieder: ${members}`,
        roll: 'zum Retten gehört genau eine Rolle',
        salvager: 'das Programm, das Rollen rettet, wird gebaut und dabei bewiesen; das dauert einige Minuten',
        salvagerless: (why) => `das Programm, das Rollen rettet, fehlt: ${why}`,
        unmade: 'es wurde nicht gebaut',
        itself: (file) => `${file} ist die Rolle selbst; bitte anders nennen oder mit --out woandershin schreiben`,
        unsalvaged: (roll, why) => `${roll} lässt sich nicht retten: ${why}`,
        tooLong: (roll) => `${roll} ist zu lang: eine Rolle hat höchstens 60000 Bytes`,
        salvaged: (trips, bytes) => `behaltene Fahrten: ${trips}, verlorene Bytes: ${bytes}`,
        lost: (offset, length) => `verloren: ab Byte ${offset}, Länge ${length}`,
    },
    en: {
        action: (word) => `'${word}' is not a task`,
        none: 'a task is missing',
        many: 'only one folder can be named',
        allowed: (option, words) => `--${option}: allowed is ${words.join(', ')}`,
        month: (word) => `--period '${word}': not a month like 2026-10`,
        date: (word) => `--today '${word}': not a date like 2026-11-03`,
        due: 'closing needs --period',
        one: (words) => `--member is only for ${words.join(', ')}`,
        reopen: '--reopen is only for correct',
        openOnly: (month) =>
            `${month} is closed: what changes there is a supplement, and comes with the open month (--period open) ` +
            'or without --period',
        unopened: ({ name, member }) =>
            `not replaced: in ${name} '${member}' would be another, too, without a supplement; are trips missing ` +
            'today, or is the tariff another?',
        corrections: (file, { corrected, cancelled }) =>
            `corrections: ${file} (trips corrected: ${corrected}, cancelled: ${cancelled.length})`,
        folder: (folder, why) => `the folder ${folder} cannot be read: ${why}`,
        unread: (files) => `cannot be read: ${files.map(({ place, why }) => `${place} (${why})`).join(', ')}`,
        there: (file) => `${file} is there already: a month is closed once`,
        doubts: (doubts) => `not closed: ${told(doubts)}. If it is meant: --force`,
        member: (name) => `no member '${name}' with trips in this period`,
        building: 'the engine is being built, which proves it; that takes some minutes',
        proved: (crate, all, name) => `crate ${crate} of ${all} is proved, ${name}`,
        unbuilt: 'the engine was not built',
        engineless: (why) => `the engine cannot be loaded: ${why}`,
        versionless: (why) => `the version's number in include/milecopper.h cannot be read: ${why}`,
        unprinted: (why) => `the output cannot be written: ${why}`,
        unwritten: (folder, why) => `cannot write in ${folder}: ${why}`,
        trips: (files) => `trips: ${files.join(', ')}`,
        books: (file) => `books: ${file}`,
        wrote: (file) => `written: ${file}`,
        progress: (done, all) => `${done} of ${all} trips`,
        found: ({ errors, warnings }) => `errors: ${errors}, warnings: ${warnings}`,
        priced: (trips, members) => `trips priced: ${trips}, members: ${members}`,
        roll: 'salvaging needs exactly one roll',
        salvager: 'the program that salvages rolls is being built, which proves it; that takes some minutes',
        salvagerless: (why) => `the program that salvages rolls is missing: ${why}`,
        unmade: 'it was not built',
        itself: (file) => `${file} is the roll itself; please rename it, or write elsewhere with --out`,
        unsalvaged: (roll, why) => `${roll} cannot be salvaged: ${why}`,
        tooLong: (roll) => `${roll} is too long: a roll has 60000 bytes at most`,
        salvaged: (trips, bytes) => `trips kept: ${trips}, bytes lost: ${bytes}`,
        lost: (offset, length) => `lost: from byte ${offset}, length ${length}`,
    },
};

// ---- Why the system refuses

const ABSENT = { de: 'nicht da', en: 'not there' };
const NO_FOLDER = { de: 'kein Ordner, sondern eine Datei', en: 'not a folder but a file' };
const NO_FILE = { de: 'keine Datei, sondern ein Ordner', en: 'not a file but a folder' };
const FORBIDDEN = { de: 'keine Berechtigung', en: 'no permission' };
const FULL = { de: 'kein Platz mehr', en: 'no space left' };
const READ_ONLY = { de: 'hier kann nur gelesen werden', en: 'this can only be read' };
const LONG_NAME = { de: 'der Name ist zu lang', en: 'the name is too long' };
const TOO_LARGE = { de: 'zu groß', en: 'too large' };

const REASONS = {
    ...{ ENOENT: ABSENT, ENOTDIR: NO_FOLDER, EEXIST: NO_FOLDER, EISDIR: NO_FILE, EACCES: FORBIDDEN, EPERM: FORBIDDEN },
    ...{ ENOSPC: FULL, EDQUOT: FULL, EROFS: READ_ONLY, ENAMETOOLONG: LONG_NAME, ERR_FS_FILE_TOO_LARGE: TOO_LARGE },
};

/** Why something failed, as a few words in one line; in the system's own where there are none here. */
export function reasonText(error, language) {
    return REASONS[error.code]?.[language] ?? String(error.message).split('\n')[0];
}
