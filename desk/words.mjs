// Words for people, German and English beside each other: why a trip is refused, how money, days, riders, classes and
// caps are said, and what a statement says besides.

export const LANGUAGES = ['de', 'en'];

// ---- Refusals, a sentence each

const REFUSALS = {
    1: {
        de: 'Der Tarif ist beschädigt: ein Datensatz ist unvollständig.',
        en: 'The tariff is damaged: a record of it is incomplete.',
    },
    2: {
        de: 'Der Tarif ist falsch aufgebaut: ein Datensatz fehlt, ist zu viel oder steht an der falschen Stelle.',
        en: 'The tariff is put together wrongly: a record is missing, is one too many or stands in the wrong place.',
    },
    3: {
        de: 'Im Tarif steht ein Wert, der nicht erlaubt ist.',
        en: 'A value in the tariff is not allowed.',
    },
    4: {
        de: 'Das Buch des Mitglieds ist beschädigt oder passt nicht zu diesem Tarif.',
        en: "The member's book is damaged or does not belong to this tariff.",
    },
    5: {
        de: 'Die Fahrt ist beschädigt: ihre Angaben sind unvollständig.',
        en: 'The trip is damaged: its entries are incomplete.',
    },
    6: {
        de: 'Klasse, Preisstufe, Mitfahrende oder Zahl der Halte sind nicht erlaubt; mancher Ort hat keine 1. Klasse.',
        en: 'Class, ticket level, party or number of stops are not allowed; some towns have no first class.',
    },
    7: {
        de: 'Eine Haltestelle der Fahrt steht nicht im Tarif.',
        en: 'The trip has a stop that the tariff does not have.',
    },
    8: {
        de: 'Datum oder Uhrzeit der Fahrt gibt es nicht.',
        en: 'The trip has a date or a time that does not exist.',
    },
    9: {
        de: 'Die Fahrt endet, bevor sie beginnt, oder dauert länger als 24 Stunden.',
        en: 'The trip ends before it begins, or takes more than 24 hours.',
    },
    10: {
        de: 'Die Fahrt beginnt, bevor die vorige zu Ende war.',
        en: 'The trip begins before the last one ended.',
    },
    11: {
        de: 'Mit dieser Fahrt wären es mehr als 256 Fahrten in diesem 24-Stunden-Fenster.',
        en: 'With this trip there would be more than 256 trips in this 24-hour window.',
    },
    12: {
        de: 'Für die Abrechnung der Fahrt ist zu wenig Platz.',
        en: "There is too little room for the trip's charges.",
    },
    13: {
        de: 'Die Fahrt hat inzwischen einen anderen Preis als angeboten.',
        en: 'The trip now costs something else than was quoted.',
    },
    14: {
        de: 'Die Abrechnung ist beschädigt: ein Datensatz ist unvollständig.',
        en: 'The statement is damaged: a record of it is incomplete.',
    },
    15: {
        de: 'In der Abrechnung steht ein Datensatz, der nicht dorthin gehört.',
        en: 'The statement has a record that is not about charges.',
    },
    16: {
        de: 'In der Abrechnung steht ein Wert, der nicht möglich ist.',
        en: 'A value in the statement is not possible.',
    },
    17: {
        de: 'Ein- und gleich wieder ausgecheckt, an derselben Haltestelle in unter drei Minuten; das kostet nichts.',
        en: 'Checked in and straight out again, at one stop in less than three minutes; it costs nothing.',
    },
    22: {
        de: 'Die Fahrt öffnet ein 24-Stunden-Fenster, bevor der Tarif gilt.',
        en: 'The trip opens a 24-hour window before the tariff is valid.',
    },
    24: {
        de: 'Der Monatsdeckel oder der schon eingezogene Betrag ist zu hoch, oder die Angaben dazu sind beschädigt.',
        en: 'The monthly ceiling or the amount collected already is too large, or what is kept of it is damaged.',
    },
};

export function refusalText(number, language) {
    const unknown = { de: `Abgelehnt mit der Nummer ${number}.`, en: `Refused with number ${number}.` };
    return (REFUSALS[number] ?? unknown)[language];
}

// Refusal 6 has several causes, and a trip says which.
const CAUSES = {
    class: { de: () => 'Es gibt nur 1. und 2. Klasse.', en: () => 'There are only first and second class.' },
    level: { de: () => 'Diese Preisstufe gibt es nicht.', en: () => 'There is no such ticket level.' },
    party: {
        de: () => 'Mehr als 10 Erwachsene, Kinder oder Fahrräder können nicht mitfahren.',
        en: () => 'No more than 10 adults, children or bicycles can be taken along.',
    },
    stops: {
        de: () => 'Eine Fahrt hat 2 bis 32 Haltestellen.',
        en: () => 'A trip has 2 to 32 stops.',
    },
    town: {
        de: (town) => `In ${town} gibt es keine 1. Klasse.`,
        en: (town) => `There is no first class in ${town}.`,
    },
};

/** Why a refused trip is refused, in a sentence. */
export function reasonText(trip, editions, language) {
    const [cause, town] = trip.refusal.number === 6 ? causeOf(trip, editions[trip.edition - 1]) : [null];
    return cause === null ? refusalText(trip.refusal.number, language) : CAUSES[cause][language](town);
}

/** The cause of refusal 6, by R5.1 and R5.7, and the town without first class that the trip touches, or towns. */
function causeOf({ class: travelClass, level, party, from, via, to }, { areas, stops }) {
    const touched = [from, ...via, to].map((stop) => areas[stops[stop].area]);
    const towns = new Set(touched.filter(({ town }) => town > 0).map(({ name }) => name));
    if (travelClass !== 1 && travelClass !== 2) return ['class'];
    if (level !== null && !'KABCD'.includes(level)) return ['level'];
    if (Object.values(party).some((number) => number > 10)) return ['party'];
    if (via.length + 2 > 32) return ['stops'];
    return travelClass === 1 && towns.size > 0 ? ['town', [...towns].join(', ')] : [null];
}

// ---- Money

/** Cents as '1.234,50 €' or '€1,234.50', with a minus where they are negative. */
export function moneyText(cents, language) {
    if (cents < 0) return `−${moneyText(-cents, language)}`;
    const [thousands, point] = language === 'de' ? ['.', ','] : [',', '.'];
    const whole = String(Math.floor(cents / 100)).replace(/\B(?=(\d{3})+$)/g, thousands);
    const amount = `${whole}${point}${String(cents % 100).padStart(2, '0')}`;
    return language === 'de' ? `${amount}\u00a0€` : `€${amount}`;
}

// ---- Days and times

const DAYS = {
    de: ['So', 'Mo', 'Di', 'Mi', 'Do', 'Fr', 'Sa'],
    en: ['Sun', 'Mon', 'Tue', 'Wed', 'Thu', 'Fri', 'Sat'],
};
const MONTHS = {
    de: [
        ...['Januar', 'Februar', 'März', 'April', 'Mai', 'Juni'],
        ...['Juli', 'August', 'September', 'Oktober', 'November', 'Dezember'],
    ],
    en: [
        ...['January', 'February', 'March', 'April', 'May', 'June'],
        ...['July', 'August', 'September', 'October', 'November', 'December'],
    ],
};

/** The day of a local time '2026-10-02T05:08': 'Fr 02.10.2026' or 'Fri 2 Oct 2026'. */
export function dayText(local, language) {
    const [year, month, day] = local.slice(0, 10).split('-');
    const weekday = DAYS[language][new Date(`${local.slice(0, 10)}T00:00Z`).getUTCDay()];
    if (language === 'de') return `${weekday} ${day}.${month}.${year}`;
    return `${weekday} ${Number(day)} ${MONTHS.en[month - 1].slice(0, 3)} ${year}`;
}

/** The same without the weekday. */
export function dateText(date, language) {
    return dayText(date, language).split(' ').slice(1).join(' ');
}

/** An edition of several: 'ab 01.06.2026', or by its last day where another follows, 'bis 31.05.2026'. */
export function editionText({ from, next }, language) {
    const [since, to] = { de: ['ab', 'bis'], en: ['from', 'to'] }[language];
    if (next === null) return `${since} ${dateText(from, language)}`;
    const last = new Date(Date.parse(`${next}T00:00Z`) - 86400000).toISOString().slice(0, 10);
    return `${to} ${dateText(last, language)}`;
}

/** A month '2026-10': 'Oktober 2026'. */
export function monthText(period, language) {
    return `${MONTHS[language][period.slice(5) - 1]} ${period.slice(0, 4)}`;
}

/** Which of the two half past twos: for a time that the clock shows twice, or a trip over the clock's change. */
export function seasonText(offset, language) {
    const summer = offset === '+02:00';
    return { de: summer ? 'Sommerzeit' : 'Winterzeit', en: summer ? 'summer time' : 'winter time' }[language];
}

// ---- Riders, classes, caps

const RIDERS = {
    de: { holder: 'Mitglied', adult: 'Erwachsene/r', child: 'Kind', bicycle: 'Fahrrad' },
    en: { holder: 'Member', adult: 'Adult', child: 'Child', bicycle: 'Bicycle' },
};

export function riderText({ sort, number }, language) {
    return sort === 'holder' ? RIDERS[language].holder : `${RIDERS[language][sort]} ${number}`;
}

export function classText(number, language) {
    return { de: `${number}. Klasse`, en: number === 1 ? 'first class' : 'second class' }[language];
}

/** A cap's class: 2 for the second-class cap, 1 for that of all classes. */
export function capClassText(number, language) {
    return number === 2 ? classText(2, language) : { de: 'alle Klassen', en: 'all classes' }[language];
}

/** '24-hour cap of Westfalen, second class'. */
export function capText(areaName, capClass, language) {
    const cap = { de: `24-Stunden-Deckel ${areaName}`, en: `24-hour cap of ${areaName}` }[language];
    return `${cap}, ${capClassText(capClass, language)}`;
}

// ---- The statement

const counted = (number, one, many) => `${number} ${number === 1 ? one : many}`;

/** What a statement says besides, by language; `month` is a month's words. */
export const STATEMENT = {
    de: {
        title: (month) => (month ? `Abrechnung ${month}` : 'Abrechnung aller Fahrten'),
        trips: (number) => counted(number, 'Fahrt', 'Fahrten'),
        refusals: (number) => `${number} abgelehnt`,
        corrections: (number) => `${number} berichtigt`,
        cancelled: (number) => `${number} gestrichen`,
        corrected: 'berichtigt',
        total: 'Zusammen',
        window: (from) => `24-Stunden-Fenster ab ${from}`,
        until: (to) => `bis ${to}`,
        noWindow: 'Außerhalb der 24-Stunden-Fenster',
        earlier: 'Das Fenster hat frühere Fahrten, die schon abgerechnet sind; für die Deckel zählen sie mit.',
        later: (month) => `Das Fenster reicht in den ${month}; dessen Fahrten stehen in der nächsten Abrechnung.`,
        elsewhere: (month) => `zählt zum ${month}`,
        columns: { number: 'Nr.', trip: 'Fahrt', who: 'Wer', price: 'Preis', off: 'Abgezogen', charge: 'Betrag' },
        via: (stops) => `über ${stops}`,
        level: (letter) => `Preisstufe ${letter}`,
        outAndBack: 'Hin und zurück, als zwei Teile berechnet',
        part: (number, from, to) => `Teil ${number}: ${from} → ${to}`,
        refused: (reason, place) => `Abgelehnt: ${reason} (${place})`,
        place: (line, file) => `Zeile ${line} ${file === null ? 'der Fahrten' : `von ${file}`}`,
        sum: (month) => (month ? `Summe im ${month}` : 'Summe'),
        charged: (month) => `Berechnet im ${month} (UTC)`,
        ceiling: 'Monatsdeckel',
        collected: 'Eingezogen',
        utc: 'Monate sind hier die der Weltzeit (UTC): eine Fahrt zählt zu dem Monat, in dem dort ihr Check-in liegt.',
        caps: 'Wie voll die Deckel am Ende sind',
        of: (sum, cap) => `${sum} von ${cap}`,
        full: 'voll',
        edition: (name, span) => `Tarif ${name}, Fassung ${span}`,
        tariff: (name, areas, stops) =>
            `${name}: ${counted(areas, 'Gebiet', 'Gebiete')}, ${counted(stops, 'Haltestelle', 'Haltestellen')}`,
        only: (name) => `Tarif ${name}`,
        hash: 'Prüfsumme des Tarifs',
        version: (version) => `Berechnet mit Milecopper ${version}`,
        picture: 'Die 24 Stunden des Fensters mit den Fahrten',
        windows: (number, charged, off) => `${number} Fenster: ${charged}, abgezogen ${off}`,
        bar: (day, charged, off) => `ab ${day}: ${charged}${off ? `, abgezogen ${off}` : ''}`,
        legend: { priced: 'voller Preis', cut: 'durch einen Deckel gekürzt', refused: 'abgelehnt' },
    },
    en: {
        title: (month) => (month ? `Statement for ${month}` : 'Statement of all trips'),
        trips: (number) => counted(number, 'trip', 'trips'),
        refusals: (number) => `${number} refused`,
        corrections: (number) => `${number} corrected`,
        cancelled: (number) => `${number} cancelled`,
        corrected: 'corrected',
        total: 'Total',
        window: (from) => `24-hour window from ${from}`,
        until: (to) => `to ${to}`,
        noWindow: 'Outside of the 24-hour windows',
        earlier: 'The window has earlier trips, which are settled already; they count for the caps.',
        later: (month) => `The window reaches into ${month}, whose trips are in the next statement.`,
        elsewhere: (month) => `counts in ${month}`,
        columns: { number: 'No.', trip: 'Trip', who: 'Who', price: 'Price', off: 'Taken off', charge: 'Charge' },
        via: (stops) => `via ${stops}`,
        level: (letter) => `ticket level ${letter}`,
        outAndBack: 'Out and back, charged as two parts',
        part: (number, from, to) => `Part ${number}: ${from} → ${to}`,
        refused: (reason, place) => `Refused: ${reason} (${place})`,
        place: (line, file) => `line ${line} of ${file === null ? 'the trips' : file}`,
        sum: (month) => (month ? `Sum in ${month}` : 'Sum'),
        charged: (month) => `Charged in ${month} (UTC)`,
        ceiling: 'Monthly ceiling',
        collected: 'Collected',
        utc: 'Months are those of UTC here: a trip counts in the month of its check-in there.',
        caps: 'How full the caps are at the end',
        of: (sum, cap) => `${sum} of ${cap}`,
        full: 'full',
        edition: (name, span) => `Tariff ${name}, edition ${span}`,
        tariff: (name, areas, stops) =>
            `${name}: ${counted(areas, 'area', 'areas')}, ${counted(stops, 'stop', 'stops')}`,
        only: (name) => `Tariff ${name}`,
        hash: "The tariff's hash",
        version: (version) => `Computed with Milecopper ${version}`,
        picture: "The window's 24 hours with the trips",
        windows: (number, charged, off) => `${counted(number, 'window', 'windows')}: ${charged}, taken off ${off}`,
        bar: (day, charged, off) => `from ${day}: ${charged}${off ? `, taken off ${off}` : ''}`,
        legend: { priced: 'full price', cut: 'cut by a cap', refused: 'refused' },
    },
};
