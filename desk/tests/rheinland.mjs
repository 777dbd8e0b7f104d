// A tariff that changes on 2026-06-01, made of the sample's: Rheinland takes the place of the Aachen region and stands
// before the others, so that all numbers move, of areas and of stops; a stop is new, and one is gone.
import { sample } from './support.mjs';

export const DAY = '2026-06-01';

const rows = (name) => sample(name).trimEnd().split('\n');
const text = (lines) => `${lines.join('\n')}\n`;

const RHEINLAND = 'RL;Rheinland;1;region;NRW;1,65;0,29;240;50;50;;;2,40;3,60;7,70;12,90;17,20;26,00;4,00;;;;;;;;3;no';
const NEW_STOP = 'jue-bf;Jülich Bf;Rheinland;311000;640000';
const GONE = 'Baesweiler Setterich';

const [head, state, ...others] = rows('areas.csv');
const [stopHead, ...stops] = rows('stops.csv');

/** The second edition's areas, in which Westfalen is the third and not the second. */
export const AREAS = text([head, state, RHEINLAND, ...others.filter((row) => !/^(AVV|BW|STO);/.test(row))]);

const moved = (row) => row.replace(/;(Aachen \(AVV\)|Baesweiler|Stolberg);/, ';Rheinland;');

/** Its stops. */
export const STOPS = text([stopHead, NEW_STOP, ...stops.filter((row) => !row.includes(GONE)).map(moved)]);

export const file = (name, content) => ({ name, bytes: new TextEncoder().encode(content) });

/** The files of both editions as the desk takes them. */
export const both = () => ({
    areas: [file('areas.csv', sample('areas.csv')), file(`areas-${DAY}.csv`, AREAS)],
    stops: [file('stops.csv', sample('stops.csv')), file(`stops-${DAY}.csv`, STOPS)],
});
