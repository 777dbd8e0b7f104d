// The page's own words, both languages.

const many = (number, one, more) => `${number} ${number === 1 ? one : more}`;

export const LABELS = {
    de: {
        subtitle: 'Fahrten abrechnen',
        files: 'Dateien',
        dropHere: 'Dateien oder einen Ordner hierher ziehen',
        filesHint:
            'areas.csv, stops.csv und alle Dateien mit Fahrten; dazu die Bücher des letzten Abschlusses, falls es ' +
            'welche gibt.',
        chooseFiles: 'Dateien wählen',
        chooseFolder: 'Ordner wählen',
        tryIt: 'Beispiel ausprobieren',
        forget: 'Alles vergessen',
        slots: {
            ...{ areas: 'Gebiete', stops: 'Haltestellen', trips: 'Fahrten' },
            ...{ corrections: 'Berichtigungen', members: 'Mitglieder', books: 'Bücher' },
        },
        none: {
            ...{ areas: 'fehlen noch', stops: 'fehlen noch', trips: 'fehlen noch' },
            corrections: 'nicht nötig; corrections.csv ändert oder streicht Zeilen der Fahrten',
            members: 'nicht nötig; mit members.csv stehen Personalnummern in der Lohnliste',
            books: 'keine; sie sind nötig, wenn die Fahrten nicht von Anfang an da sind',
        },
        ceiling: 'Monatsdeckel',
        ceilingHint:
            'Leer: keiner. Sonst wird je Mitglied im Monat höchstens so viel eingezogen; Monate sind dann die der ' +
            'Weltzeit (UTC).',
        lines: (number) => many(number, 'Zeile', 'Zeilen'),
        remove: (name) => `${name} entfernen`,
        replaced: (name) => `${name} war schon da und wurde ersetzt.`,
        inPlaceOf: (name, other) => `${name} steht jetzt an der Stelle von ${other}.`,
        unknown: (names) => `Nicht erkannt: ${names}`,
        rolls: (names) =>
            `Nicht genommen: ${names}. Rollen (.bin) nimmt die Seite nicht; eine zerrissene rettet ./milecopper salvage.`,
        workbooks: (names) => `So nicht lesbar: ${names}. Bitte mit „Speichern unter“ als „CSV UTF-8“ speichern.`,
        unread: (names) => `Nicht lesbar: ${names}`,
        helpSummary: 'Wie die Dateien aussehen',
        helpText:
            'CSV oder Excel (.xlsx, das erste Blatt) mit einer Kopfzeile, die Spalten in beliebiger Reihenfolge. Sie ' +
            'heißen wie hier oder auf Deutsch: Mitglied, Datum, Abfahrt, Ankunft, von, nach, über, Klasse, ' +
            'Preisstufe, Erwachsene, Kinder, Fahrräder. Gebiete und Haltestellen schreibt jemand einmal; wechselt ' +
            'der Tarif, so kommt areas-2026-06-01.csv dazu, mit dem Tag, ab dem er gilt, und wenn nötig ' +
            'stops-2026-06-01.csv. Die Fahrten kommen jeden Monat dazu:',
        columns: {
            'member, date, depart, arrive, from, to':
                'Mitglied, Tag (2026-10-31 oder 31.10.2026), Abfahrt und Ankunft (23:48), Start und Ziel, mit Name ' +
                'oder id. Eine Ankunft vor der Abfahrt ist am nächsten Tag.',
            'via, class, level':
                'Umstiege, mit | getrennt; Klasse 1 oder 2, leer ist 2; Preisstufe K, A, B, C oder D, leer ist keine.',
            'adults, children, bicycles': 'Erwachsene, Kinder und Fahrräder, die mitfahren; leer ist 0.',
        },
        samples: 'Beispieldateien speichern:',
        working: 'Wird berechnet …',
        priced: (trips, members) =>
            `${many(trips, 'Fahrt', 'Fahrten')} von ${many(members, 'Mitglied', 'Mitgliedern')} berechnet.`,
        refused: (number) => many(number, 'Fahrt wurde abgelehnt.', 'Fahrten wurden abgelehnt.'),
        nothing: 'In den Fahrten steht noch keine.',
        failed: (why) => `Das hätte nicht geschehen dürfen, und nichts wird ausgegeben: ${why}`,
        notPriced: 'Es wurde nichts berechnet, weil etwas in den Dateien nicht stimmt.',
        errors: (number) => `${number} Fehler`,
        warnings: (number) => many(number, 'Warnung', 'Warnungen'),
        mend: 'Bitte in den Dateien verbessern und diese noch einmal hierher ziehen.',
        look: 'Bitte ansehen; alles Übrige ist berechnet.',
        mistakeColumns: { line: 'Zeile', found: 'Da steht', wrong: 'Was nicht stimmt' },
        kinds: { error: 'Fehler', warning: 'Warnung' },
        further: (number) => `und ${number} weitere`,
        result: 'Ergebnis',
        period: 'Monat',
        allMonths: 'alle Monate',
        closedMonth: (month) => `${month}, abgeschlossen`,
        wages: 'Beträge der Mitglieder',
        wageColumns: {
            ...{ member: 'Mitglied', period: 'Monat', trips: 'Fahrten', refused: 'Abgelehnt' },
            ...{ bars: 'Fenster im Monat', off: 'Abgezogen', amount: 'Betrag', charged: 'Berechnet' },
        },
        periodUtc: 'Monat (UTC)',
        collected: (ceiling) =>
            `Betrag ist, was eingezogen wird: im Monat höchstens ${ceiling}. Monate sind die der Weltzeit (UTC).`,
        barsTitle: (charged, off) => `Fenster: ${charged} berechnet ${off} abgezogen`,
        total: 'Zusammen',
        office: 'Für das Lohnbüro',
        saveWages: 'Lohnliste speichern',
        saveCharges: 'Einzelbeträge speichern',
        forMembers: 'Für die Mitglieder',
        saveFiles: 'Je Mitglied eine Datei (zip)',
        saveStatements: 'Alle in einer Datei',
        printAll: 'Alle drucken',
        letter: 'Absender und Datum',
        letterName: 'Verein',
        letterContact: 'Kontakt',
        letterDate: 'Datum',
        letterHint: 'Das steht über jeder Abrechnung. Verein und Kontakt werden nur in den Büchern aufgehoben.',
        corrected: ({ corrected, cancelled }) =>
            [
                ...(corrected > 0 ? [many(corrected, 'Fahrt wurde berichtigt.', 'Fahrten wurden berichtigt.')] : []),
                ...(cancelled > 0 ? [many(cancelled, 'Fahrt wurde gestrichen.', 'Fahrten wurden gestrichen.')] : []),
            ].join(' '),
        corrections: 'Berichtigungen',
        differences: 'Was die Berichtigungen ändern',
        differenceColumns: {
            ...{ member: 'Mitglied', rider: 'Wer' },
            ...{ before: 'Vorher', after: 'Nachher', difference: 'Unterschied' },
        },
        sums: { sum: 'Summe', charged: 'Berechnet', collected: 'Eingezogen' },
        supplements: 'Nachträge zu abgeschlossenen Monaten',
        supplement: (month) => `Nachtrag ${month}`,
        saveDifferences: 'Unterschiede speichern',
        reopen: 'Bücher ersetzen und speichern',
        reopenHint:
            'Ein Nachtrag kommt jeden Monat wieder, bis die Bücher ersetzt sind. Der offene Monat geht dann von den ' +
            'neuen aus; in der Lohnliste bleibt der Nachtrag noch stehen.',
        reopened: (names) => `Bitte anstelle der bisherigen Bücher aufheben: ${names}`,
        unopened: ({ name, member }) =>
            `Nicht ersetzt: in ${name} wäre auch ${member} anders, ohne Nachtrag. Fehlen Fahrten, oder ist der Tarif ` +
            'ein anderer?',
        closing: 'Monat abschließen',
        saveBooks: 'Abschließen, Bücher speichern',
        booksHint: 'Einmal je Monat, wenn alle seine Fahrten da sind. Von diesen Büchern geht der nächste Monat aus.',
        booksHintAll: 'Zum Abschließen bitte einen Monat wählen.',
        booksHintClosed: 'Dieser Monat ist schon abgeschlossen.',
        closeAnyway: 'Ja, trotzdem abschließen',
        closed: (month, name) => `${month} ist abgeschlossen: ${name} bitte gut aufheben.`,
        newTariff: 'Mit den neuen Preisen weiterrechnen',
        statement: 'Abrechnung',
        shown: (name) => `Abrechnung von ${name}`,
        saveOne: 'Speichern',
        printOne: 'Drucken',
        toList: 'Zur Liste',
        steps: { '-1': (name) => `Vorige: ${name}`, 1: (name) => `Nächste: ${name}` },
        progress: 'Fortschritt',
        saved: (name) => `${name} wurde gespeichert.`,
        stays: 'Alles bleibt auf diesem Rechner: die Seite sendet nichts und behält nur, was gespeichert wird.',
    },
    en: {
        subtitle: 'settle trips',
        files: 'Files',
        dropHere: 'Drop files or a folder here',
        filesHint:
            'areas.csv, stops.csv and all files of trips; and the books of the last closing, if there are any.',
        chooseFiles: 'Choose files',
        chooseFolder: 'Choose a folder',
        tryIt: 'Try the sample',
        forget: 'Forget everything',
        slots: {
            ...{ areas: 'Areas', stops: 'Stops', trips: 'Trips' },
            ...{ corrections: 'Corrections', members: 'Members', books: 'Books' },
        },
        none: {
            ...{ areas: 'still missing', stops: 'still missing', trips: 'still missing' },
            corrections: 'not needed; corrections.csv changes or cancels lines of the trips',
            members: 'not needed; with members.csv the wages have personnel numbers',
            books: 'none; needed where the trips are not there from the start',
        },
        ceiling: 'Monthly ceiling',
        ceilingHint:
            'Empty: none. Else no more than this is collected of a member in a month, and months are those of UTC.',
        lines: (number) => many(number, 'line', 'lines'),
        remove: (name) => `Remove ${name}`,
        replaced: (name) => `${name} was there already and was replaced.`,
        inPlaceOf: (name, other) => `${name} now stands in the place of ${other}.`,
        unknown: (names) => `Not recognised: ${names}`,
        rolls: (names) =>
            `Not taken: ${names}. The page takes no rolls (.bin); a torn one is for ./milecopper salvage.`,
        workbooks: (names) => `Not readable as it is: ${names}. Please save it with “Save as” as “CSV UTF-8”.`,
        unread: (names) => `Not readable: ${names}`,
        helpSummary: 'What the files look like',
        helpText:
            'CSV or Excel (.xlsx, the first sheet) with a header, columns in any order, called as here or in German. ' +
            'Areas and stops are written once by someone; where the tariff changes, areas-2026-06-01.csv is added, ' +
            'with the day from which it is valid, and if need be stops-2026-06-01.csv. Trips are added each month:',
        columns: {
            'member, date, depart, arrive, from, to':
                'Member, day (2026-10-31 or 31.10.2026), departure and arrival (23:48), first and last stop, by name ' +
                'or id. An arrival before the departure is the next day’s.',
            'via, class, level':
                'Changes, with | between them; class 1 or 2, empty is 2; ticket level K, A, B, C or D, empty is none.',
            'adults, children, bicycles': 'Adults, children and bicycles taken along; empty is 0.',
        },
        samples: 'Save the sample files:',
        working: 'Working …',
        priced: (trips, members) => `${many(trips, 'trip', 'trips')} of ${many(members, 'member', 'members')} priced.`,
        refused: (number) => many(number, 'trip was refused.', 'trips were refused.'),
        nothing: 'There is no trip among the trips yet.',
        failed: (why) => `This should not have happened, and nothing is put out: ${why}`,
        notPriced: 'Nothing was priced, since something in the files is wrong.',
        errors: (number) => many(number, 'error', 'errors'),
        warnings: (number) => many(number, 'warning', 'warnings'),
        mend: 'Please mend them in the files and drop these here once more.',
        look: 'Please look at them; everything else is priced.',
        mistakeColumns: { line: 'Line', found: 'What stands there', wrong: 'What is wrong' },
        kinds: { error: 'Error', warning: 'Warning' },
        further: (number) => `and ${number} more`,
        result: 'Result',
        period: 'Month',
        allMonths: 'all months',
        closedMonth: (month) => `${month}, closed`,
        wages: 'The members’ amounts',
        wageColumns: {
            ...{ member: 'Member', period: 'Month', trips: 'Trips', refused: 'Refused' },
            ...{ bars: 'Windows of the month', off: 'Taken off', amount: 'Amount', charged: 'Charged' },
        },
        periodUtc: 'Month (UTC)',
        collected: (ceiling) =>
            `The amount is what is collected: ${ceiling} a month at the most. Months are those of UTC.`,
        barsTitle: (charged, off) => `Windows: ${charged} charged ${off} taken off`,
        total: 'Total',
        office: 'For the wage office',
        saveWages: 'Save the wages',
        saveCharges: 'Save every charge',
        forMembers: 'For the members',
        saveFiles: 'A file for each member (zip)',
        saveStatements: 'All in one file',
        printAll: 'Print all',
        letter: 'Sender and date',
        letterName: 'Association',
        letterContact: 'Contact',
        letterDate: 'Date',
        letterHint: 'This stands above each statement. Association and contact are kept in the books only.',
        corrected: ({ corrected, cancelled }) =>
            [
                ...(corrected > 0 ? [many(corrected, 'trip was corrected.', 'trips were corrected.')] : []),
                ...(cancelled > 0 ? [many(cancelled, 'trip was cancelled.', 'trips were cancelled.')] : []),
            ].join(' '),
        corrections: 'Corrections',
        differences: 'What the corrections change',
        differenceColumns: {
            ...{ member: 'Member', rider: 'Who' },
            ...{ before: 'Before', after: 'After', difference: 'Difference' },
        },
        sums: { sum: 'Sum', charged: 'Charged', collected: 'Collected' },
        supplements: 'Supplements to closed months',
        supplement: (month) => `Supplement for ${month}`,
        saveDifferences: 'Save the differences',
        reopen: 'Replace and save the books',
        reopenHint:
            'A supplement comes again each month until the books are replaced. The open month then goes on from the ' +
            'new ones; the supplement still stays in the wages.',
        reopened: (names) => `Please keep in the place of the former books: ${names}`,
        unopened: ({ name, member }) =>
            `Not replaced: in ${name} ${member} would be another, too, without a supplement. Are trips missing, or ` +
            'is the tariff another?',
        closing: 'Close the month',
        saveBooks: 'Close and save the books',
        booksHint: 'Once a month, when all its trips are there. The next month goes on from these books.',
        booksHintAll: 'Please choose a month to close.',
        booksHintClosed: 'This month is closed already.',
        closeAnyway: 'Yes, close it all the same',
        closed: (month, name) => `${month} is closed: please keep ${name} safe.`,
        newTariff: 'Go on with the new prices',
        statement: 'Statement',
        shown: (name) => `Statement of ${name}`,
        saveOne: 'Save',
        printOne: 'Print',
        toList: 'Back to the list',
        steps: { '-1': (name) => `Last: ${name}`, 1: (name) => `Next: ${name}` },
        progress: 'Progress',
        saved: (name) => `${name} was saved.`,
        stays: 'Everything stays on this computer: the page sends nothing and keeps only what is saved.',
    },
};
