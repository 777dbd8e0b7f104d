/** A trip, a tariff file, a book, charge records: bytes as FORMAT.md says. */
type Bytes = Uint8Array;

export const BOOK_BYTES: number;
/** What is kept beside a book under a monthly ceiling; all zero at first. */
export const KEPT_BYTES: number;
export const LARGEST_TARIFF_BYTES: number;
export const LARGEST_STATEMENT_BYTES: number;
export const LARGEST_FIELDS_BYTES: number;

/** Where the package's own milecopper.wasm stands. */
export const wasm: URL;

export interface Refused {
    accepted: false;
    /** `place` is the offset of the faulty record in the tariff file for the refusals 1 to 3, else 0. */
    refusal: { number: number; place: number; text: { de: string; en: string } };
}

/** What a charge record says of one person or bicycle, in cents. */
export interface Charge {
    cents: number;
    /** What caps took off the price. */
    off: number;
    /** The area of the cap that is named for it; 255 where nothing was taken off. */
    capArea: number;
    /** 2 that area's second-class cap, 1 its all-classes cap, 0 none. */
    capClass: number;
}

export interface ChargeRecord {
    kind: number;
    /** The window's opening, in minutes since 2000-01-01 00:00 UTC. */
    opening: number;
    area: number;
    km: number;
    minutes: number;
    adults: number;
    children: number;
    bicycles: number;
    /** Of the account holder, the adults, the children, the bicycles. */
    charges: Charge[];
}

/** A monthly ceiling in cents, and what is kept beside the book to begin with. */
export interface Month {
    ceiling: number;
    kept: Bytes;
}

/** A book under a tariff, on which trips are settled one after another. */
export interface Account<Trip> {
    /** `due` is there under a monthly ceiling: the cents that the trip collects. */
    settle(trip: Trip): { accepted: true; records: ChargeRecord[]; due?: number } | Refused;
    /** The book as it is now, until the next call. */
    view(): DataView;
    /** A copy of it. */
    book(): Bytes;
    /** A copy of what is kept now; of no bytes where there is no ceiling. */
    kept(): Bytes;
}

/** Nothing that is lent is changed; a new book is given back. */
export interface Engine {
    version: string;
    checkTariff(tariff: Bytes): { accepted: true; bytes: number } | Refused;
    settle(tariff: Bytes, book: Bytes, trip: Bytes): { accepted: true; statement: Bytes; book: Bytes } | Refused;
    /** Under a monthly ceiling in cents: what the trip collects is `due`, and `kept` is given back as the book is. */
    settleMonth(
        ceiling: number,
        kept: Bytes,
        tariff: Bytes,
        book: Bytes,
        trip: Bytes,
    ): { accepted: true; statement: Bytes; book: Bytes; kept: Bytes; due: number } | Refused;
    quote(tariff: Bytes, book: Bytes, trip: Bytes): { accepted: true; statement: Bytes } | Refused;
    post(tariff: Bytes, book: Bytes, trip: Bytes, record: Bytes): { accepted: true; book: Bytes } | Refused;
    /** The charge record at an offset; the next one begins `size` bytes further. */
    read(records: Bytes, at: number): { accepted: true; size: number; fields: ChargeRecord } | Refused;
    /** `put` writes the record of a trip and answers its length. */
    open<Trip>(tariff: Bytes, book: Bytes, put: (bytes: Bytes, trip: Trip) => number, month?: Month): Account<Trip>;
    refusalText(number: number, language: 'de' | 'en'): string;
}

/** The engine on the bytes of a milecopper.wasm. */
export function loadEngine(wasmBytes: BufferSource): Promise<Engine>;

/** The engine on the package's own milecopper.wasm. */
export function openEngine(): Promise<Engine>;
