// Files that were chosen or dropped: which is which, which one takes another's place, and what is found in a folder.
import { namesOf } from '../columns.mjs';
import { headerOf } from '../csv.mjs';
import { dayInName } from '../editions.mjs';
import { shownText } from '../encoding.mjs';
import { folded } from '../names.mjs';

/**
 * The sorts of files: those that have to be there, those of which several are taken together, and those of which there
 * is one of each edition, known by the day in its name.
 */
export const SORTS = {
    areas: { due: true, several: true, editions: true },
    stops: { due: true, several: true, editions: true },
    trips: { due: true, several: true },
    corrections: {},
    members: {},
    books: { several: true },
};
export const DUE = Object.keys(SORTS).filter((sort) => SORTS[sort].due);

// ---- Which is which

const ENDING = /\.(csv|json|xlsx)$/i;
const NAMED = /^(areas|stops|trips|books|members|corrections)\b.*\.(csv|json|xlsx?|ods)$/i;
const MARKS = { corrections: 'cancel', trips: 'depart', stops: 'x_m', areas: 'per_km', members: 'number' };

/** What a file holds, by its name, else by the columns that its first line names; null for any other. */
export function sortOf({ name, bytes }) {
    const named = NAMED.exec(name);
    if (named) return named[1].toLowerCase();
    const start = shownText(bytes.subarray(0, 2000));
    if (start.includes('milecopper books')) return 'books';
    const header = headerOf(start).map(folded);
    const has = (column) => namesOf(column).some((name) => header.includes(folded(name)));
    return Object.keys(MARKS).find((sort) => has(MARKS[sort])) ?? null;
}

/** Whether a file is likely a roll of trips in bytes, by its name. */
export const isRoll = ({ name }) => /\.bin$/i.test(name);

/** The lines of a file, as the mistakes count them. */
export function linesOf({ bytes }) {
    return shownText(bytes).split(/\r\n|\n|\r/);
}

/** How many lines of a file have something in them. */
export function rowsIn(file) {
    return linesOf(file).filter((line) => line.trim() !== '').length;
}

// ---- Which are kept

/**
 * The files with one more, and the one whose place it takes, or null. Of trips and books there may be several, and a
 * file takes the place of one of its name; of areas and stops that of one of its edition; of the others there is one.
 * What is someone's own takes the sample's place.
 */
export function withFile(files, file) {
    const { several, editions } = SORTS[file.sort];
    const sameName = (own) => own.name === file.name || !several;
    const same = (own) => (editions ? dayInName(own.name) === dayInName(file.name) : sameName(own));
    const gone = (own) => own.sort === file.sort && (same(own) || own.sample);
    const replaced = files.find((own) => gone(own) && !own.sample) ?? null;
    return { files: [...files.filter((own) => !gone(own)), file], replaced };
}

/** The files as the desk takes them, several by their names, so that the order of choosing does not matter. */
export function deskFiles(files) {
    const own = (sort) => files.filter((file) => file.sort === sort).map(({ name, bytes }) => ({ name, bytes }));
    const inOrder = (list) => list.sort((one, other) => (one.name < other.name ? -1 : 1));
    return Object.fromEntries(Object.entries(SORTS).map(([sort, { several }]) => {
        return [sort, several ? inOrder(own(sort)) : own(sort)[0]];
    }));
}

// ---- Folders

/** A chosen folder's own files that may be ours; what lies deeper is left alone. */
export function ofFolder(files) {
    return ours([...files].filter(({ webkitRelativePath }) => webkitRelativePath.split('/').length <= 2));
}

/** Those of a folder that may be ours; a workbook that is there as CSV, too, is left out: its trips would be twice. */
function ours(files) {
    const names = new Set(files.map(({ name }) => name.toLowerCase()));
    const isSaved = (name) => /\.xlsx$/i.test(name) && names.has(name.toLowerCase().replace(/xlsx$/, 'csv'));
    return files.filter(({ name }) => ENDING.test(name) && !isSaved(name));
}

/** What was dropped: files, and of each folder its own files that may be ours. To be called within the drop itself. */
export function ofDrop({ items, files }) {
    const entries = [...items].map((item) => item.webkitGetAsEntry?.() ?? null);
    const handles = [...items].map((item, i) => (entries[i]?.isDirectory ? item.getAsFileSystemHandle?.() : null));
    const given = [...files];
    if (!entries.some((entry) => entry?.isDirectory)) return Promise.resolve(given);
    const found = entries.map((entry, i) => {
        return entry?.isDirectory ? inFolder(entry, handles[i]) : [items[i]?.getAsFile?.() ?? given[i]];
    });
    return Promise.all(found).then((lists) => lists.flat().filter(Boolean));
}

/** A dropped folder's own files: by its handle, where there is one, since a page from disk may not read its entries. */
async function inFolder(entry, handle) {
    const folder = await handle?.catch?.(() => null);
    if (folder) return byHandle(folder);
    const entries = await allEntries(entry.createReader());
    const own = ours(entries.filter(({ isFile }) => isFile));
    return Promise.all(own.map((file) => new Promise((done, fail) => file.file(done, fail))));
}

async function byHandle(folder) {
    const found = [];
    for await (const handle of folder.values()) if (handle.kind === 'file') found.push(handle);
    return Promise.all(ours(found).map((handle) => handle.getFile()));
}

/** A reader gives its entries in portions, and at the end an empty one. */
async function allEntries(reader) {
    const all = [];
    for (;;) {
        const some = await new Promise((done, fail) => reader.readEntries(done, fail));
        if (some.length === 0) return all;
        all.push(...some);
    }
}
