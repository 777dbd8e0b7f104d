import type { Engine } from './index.js';

export type Language = 'de' | 'en';

/** Bytes, a text, or bytes with the name under which mistakes tell of them. */
export type DeskFile = Uint8Array | string | { name: string; bytes: Uint8Array };

export interface DeskFiles {
    /** Of areas and stops those of the second edition have the day in their names: areas-2026-06-01.csv. */
    areas: DeskFile | DeskFile[];
    stops: DeskFile | DeskFile[];
    trips: DeskFile | DeskFile[];
    /** Says who is who. */
    members?: DeskFile;
    /** Corrects lines of the trips: all that is said is of the corrected ones. */
    corrections?: DeskFile;
    /** One file, from which the trips go on; or several, of which it is the last one before the period. */
    books?: DeskFile | DeskFile[];
}

export interface DeskOptions {
    engine: Engine;
    files: DeskFiles;
    /** '2026-10', what counts; 'open', the month that is open; null, all trips. */
    period?: string | null;
    zone?: string;
    language?: Language;
    /** '2026-11-03' */
    today?: string;
    /** Warnings are errors. */
    strict?: boolean;
    /** Books that were kept under other prices are meant. */
    newTariff?: boolean;
    /** The cents to which what is collected of a member in a month is limited; months are those of UTC then. */
    ceiling?: number | null;
    /** What corrections change is put out, too, and what they and late trips change in closed months, as supplements. */
    correct?: boolean;
    /** With `correct`: supplements that cannot be priced are warnings. */
    tolerant?: boolean;
    /** With `correct`: the trips go on from books as they would be with the supplements. */
    reopen?: boolean;
    progress?: (done: number, all: number) => void;
}

export interface Mistake {
    file: string;
    line: number;
    kind: 'error' | 'warning';
    key: string;
    text: string;
}

export interface WagesRow {
    member: string;
    period: string;
    /** Those that were accepted. */
    trips: number;
    refused: number;
    /** Under a ceiling what is collected, else what is charged. */
    cents: number;
    /** What is charged, under a ceiling. */
    charged?: number;
    /** The personnel number, where there is a file of members. */
    number?: string;
    /** Says of a row that it is a supplement to a closed month: the amounts are differences, and may be below 0. */
    supplement?: 'yes';
}

/** What one rider or bicycle of a member, or the member in all, was charged before the corrections and is after them, in cents. */
export interface DifferenceRow {
    member: string;
    rider: string;
    before: number;
    after: number;
    difference: number;
    /** The closed month to which it is a supplement. */
    supplement: string | null;
    [more: string]: unknown;
}

/** A member with trips and windows; what they hold is for the functions below. */
export interface Member {
    name: string;
    book: Uint8Array;
    [more: string]: unknown;
}

/** With an error among the mistakes there are no members and no tables. */
export interface DeskResult {
    mistakes: Mistake[];
    errors: number;
    warnings: number;
    period: string | null;
    members: Member[];
    wages: WagesRow[];
    /** How many trips were refused in the period. */
    refused: number;
    books: Map<string, Uint8Array>;
    ceiling: number | null;
    /** How many trips are corrected, and those that are cancelled; null where there are no corrections. */
    corrections: { name: string; corrected: number; cancelled: unknown[] } | null;
    /** With `correct`. */
    differences: DifferenceRow[];
    supplements: WagesRow[];
    /** The first closed month that would be another now. */
    reopens: string | null;
    /** A row for each charge, by column. */
    readonly charges: Record<string, string | number | null>[];
    [more: string]: unknown;
}

/** The period that is asked for where it is to be the open month. */
export const OPEN: 'open';

/** Reads the files, settles every member's trips, makes the tables. */
export function runDesk(options: DeskOptions): DeskResult;

/** Files as `runDesk` reads them: of a workbook, .xlsx, the first sheet as CSV. */
export function prepared(files: DeskFiles): Promise<DeskFiles>;

/** Those members that have a statement: with a trip in the period. */
export function membersOf(result: DeskResult): Member[];
export function statementText(member: Member, result: DeskResult, language: Language): string;

/** As CSV, with amounts in euros, or as JSON, with amounts in cents. */
export function wagesText(result: DeskResult, format: 'csv' | 'json', language: Language): string;
export function chargesText(result: DeskResult, format: 'csv' | 'json', language: Language): string;

export function differencesText(result: DeskResult, format: 'csv' | 'json', language: Language): string;

/** A ceiling that is written in euros, '150,00' or '150.00', as cents; null where it is none. */
export function ceilingOf(text: string): number | null;

/**
 * Books in the place of the closed ones that would be others now, of a result with `correct` and `reopen`, and its options. Where more
 * would change than the supplements say, `fault` names the first book and member, and there are no files.
 */
export function reopenedBooks(
    options: DeskOptions,
    result: DeskResult,
): { files: { name: string; bytes: Uint8Array }[]; fault: { name: string; member: string } | null };

/** The books at the end of the result's period, and the name of their file. */
export function booksText(result: DeskResult): string;
export function booksName(period: string): string;
