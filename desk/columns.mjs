// What the columns are called: in English, as the desk says them, and in German.
import { folded } from './names.mjs';

const letters = (name, german) => Object.fromEntries(['k', 'a', 'b', 'c', 'd'].map((level) => {
    return [`${name}_${level}`, [`${german} ${level.toUpperCase()}`]];
}));

/** The German names of each column; docs/DESK.md has them as a table. */
export const GERMAN = {
    // trips
    member: ['Mitglied', 'Name'],
    date: ['Datum'],
    depart: ['Abfahrt', 'ab'],
    arrive: ['Ankunft', 'an'],
    from: ['von', 'Start'],
    to: ['nach', 'Ziel'],
    via: ['über'],
    class: ['Klasse'],
    level: ['Preisstufe', 'Ebene'], // a trip's, and an area's
    adults: ['Erwachsene'],
    children: ['Kinder'],
    bicycles: ['Fahrräder', 'Räder'],
    // stops and areas
    id: ['Kennung', 'Kürzel'],
    area: ['Gebiet'],
    x_m: ['Rechtswert', 'x'],
    y_m: ['Hochwert', 'y'],
    within: ['liegt in'],
    kind: ['Art'],
    base: ['Grundpreis'],
    per_km: ['je km', 'Kilometerpreis'],
    valid_min: ['gültig Minuten'],
    first_percent: ['Zuschlag 1. Klasse'],
    child_percent: ['Kinderermäßigung'],
    trip_cap: ['Fahrtdeckel'],
    trip_cap_min: ['Fahrtdeckel Minuten'],
    ...letters('cap', 'Fahrtdeckel'),
    day_cap: ['24-Stunden-Deckel', 'Tagesdeckel'],
    bicycle: ['Fahrrad'],
    factor: ['Faktor'],
    city_whole: ['Stadt ganz'],
    bicycle_trip: ['Fahrrad je Fahrt'],
    town: ['Ort'],
    child_ticket: ['Kinderticket'],
    ...letters('child', 'Kinderticket'),
    // corrections
    file: ['Datei'],
    line: ['Zeile'],
    cancel: ['streichen', 'gestrichen'],
    // members
    number: ['Personalnummer', 'Nummer'],
    email: ['E-Mail-Adresse', 'Mail'],
};

/** All names of a column, its own first. */
export const namesOf = (column) => [column, ...(GERMAN[column] ?? [])];

/** The columns of a file by what a header may call them, without capitals, umlauts, blanks and signs. */
export function columnsBy(columns) {
    const known = Object.keys(columns).flatMap((column) => namesOf(column).map((name) => [folded(name), column]));
    return new Map(known.reverse()); // a column's own name is not another's
}
