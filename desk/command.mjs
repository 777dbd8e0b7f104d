// The command over the desk's core: which files, what is asked for, where it goes, and with which status it ends.
import fs from 'node:fs';
import path from 'node:path';
import { fileURLToPath } from 'node:url';
import { parseArgs } from 'node:util';
import { Disagreement } from './account.mjs';
import { booksName, booksText } from './books.mjs';
import { builtSalvager, builtWasm } from './building.mjs';
import { ceilingOf, monthZoneOf, noCeiling } from './ceiling.mjs';
import { dayOf, todayIn } from './clock.mjs';
import { differencesText } from './differences.mjs';
import { loadEngine } from './engine.mjs';
import { mistakeLine, mistakeText } from './mistakes.mjs';
import { isPeriod } from './months.mjs';
import { fileSafe } from './names.mjs';
import { writeFiles } from './output.mjs';
import { reopenedBooks } from './reopening.mjs';
import { OPEN, runDesk } from './run.mjs';
import { KEPT, salvaged } from './salvage.mjs';
import { agreeStatements, membersOf, statementText } from './statement.mjs';
import { HELP, USAGE, WORDS, reasonText } from './usage.mjs';
import { chargesText, wagesText } from './wages.mjs';
import { prepared } from './workbook.mjs';

const ROOT = path.dirname(path.dirname(fileURLToPath(import.meta.url)));
const LANGUAGES = ['de', 'en'];
const FORMATS = ['csv', 'json'];

const ALL_PRICED = 0;
const TRIP_REFUSED = 1;
const NOTHING_LOST = 0;
const BYTES_LOST = 1;
const MISTAKEN = 2; // in the input, the words of the call or the files: nothing is written then

/** What ends the run with status 2: a sentence, and whether the usage is told with it. */
class Mistaken extends Error {
    constructor(text, usage = false) {
        super(text);
        this.usage = usage;
    }
}

const tell = (text) => process.stderr.write(`./milecopper: ${text}\n`);

/** Runs the command, and answers its status. */
export async function main(words) {
    process.stdout.on('error', endUnprinted);
    process.stderr.on('error', () => {}); // nobody listens: what is told is lost, and the status stays
    try {
        const call = await callOf(words);
        if (call.said !== undefined) {
            process.stdout.write(call.said);
            return ALL_PRICED;
        }
        return call.action === SALVAGE ? await salvage(call) : await perform(call);
    } catch (error) {
        if (!(error instanceof Mistaken)) throw error;
        tell(error.message);
        if (error.usage) process.stderr.write(USAGE);
        return MISTAKEN;
    }
}

/** A reader that has enough, such as head, is no mistake; a full disk is. */
function endUnprinted(error) {
    if (error.code === 'EPIPE') process.exit(ALL_PRICED);
    tell(LANGUAGES.map((language) => WORDS[language].unprinted(reasonText(error, language))).join(' / '));
    process.exit(MISTAKEN);
}

/** What `make` gives. Its failure ends the run with the sentence that `say` makes of the reason. */
async function orMistaken(language, make, say) {
    try {
        return await make();
    } catch (error) {
        throw error instanceof Mistaken ? error : new Mistaken(say(reasonText(error, language)));
    }
}

// ---- The call

const TEXTS = ['members', 'corrections', 'period', 'format', 'out', 'language', 'member', 'today', 'ceiling'];
const LISTS = ['areas', 'stops', 'trips', 'books'];
const MARKS = ['force', 'new-tariff', 'reopen', 'strict'];
const OPTIONS = {
    ...Object.fromEntries(TEXTS.map((name) => [name, { type: 'string' }])),
    ...Object.fromEntries(LISTS.map((name) => [name, { type: 'string', multiple: true }])),
    ...Object.fromEntries(MARKS.map((name) => [name, { type: 'boolean' }])),
    help: { type: 'boolean', short: 'h' },
    version: { type: 'boolean' },
};

const OF_ONE = ['settle', 'statement', 'wages']; // what can be had of one member
const SALVAGE = 'salvage'; // of a roll, without tariff, books or months
const CORRECT = 'correct'; // settles twice, and prices what changes in closed months
const ACTIONS = { check: checked, settle: settled, statement: stated, wages: waged, correct: corrected, close: closed };

async function callOf(args) {
    const { values, positionals } = parsed(args);
    const language = values.language ?? 'de';
    if (!LANGUAGES.includes(language)) throw new Mistaken(WORDS.de.allowed('language', LANGUAGES), true);
    if (values.help) return { said: USAGE + HELP[language] };
    const words = WORDS[language];
    if (values.version) return { said: await orMistaken(language, versionLine, words.versionless) };
    const [action, folder = '.', more] = positionals;
    if (action === undefined) throw new Mistaken(words.none, true);
    if (action === SALVAGE) return salvageCall(values, positionals, language);
    if (!Object.hasOwn(ACTIONS, action)) throw new Mistaken(words.action(action), true);
    if (more !== undefined) throw new Mistaken(words.many, true);
    const format = values.format ?? 'csv';
    if (!FORMATS.includes(format)) throw new Mistaken(words.allowed('format', FORMATS), true);
    if (action === 'close' && values.period === undefined) throw new Mistaken(words.due, true);
    if (values.member !== undefined && !OF_ONE.includes(action)) throw new Mistaken(words.one(OF_ONE), true);
    if (values.reopen && action !== CORRECT) throw new Mistaken(words.reopen, true);
    const ceiling = ceilingIn(values, language);
    return { ...values, ...datesOf({ ...values, ceiling }, words), ceiling, action, folder, format, language, words };
}

/** A roll that is to be salvaged, and what is to be said of it: sentences, or a table. */
function salvageCall({ out = '.', format }, [, roll, more], language) {
    const words = WORDS[language];
    if (roll === undefined || more !== undefined) throw new Mistaken(words.roll, true);
    if (format !== undefined && format !== 'csv') throw new Mistaken(words.allowed('format', ['csv']), true);
    return { action: SALVAGE, roll, out, table: format !== undefined, language, words };
}

/** The monthly ceiling in cents; null where none is asked for. */
function ceilingIn({ ceiling: text }, language) {
    if (text === undefined) return null;
    const cents = ceilingOf(text);
    if (cents === null) throw new Mistaken(mistakeText(noCeiling('--ceiling', text), language), true);
    return cents;
}

/** The month that is asked for, and today's date by the clock that months go by. */
function datesOf({ period = null, ceiling, ...given }, words) {
    const { today = todayIn(monthZoneOf(ceiling)) } = given;
    if (period !== null && period !== OPEN && !isPeriod(period)) throw new Mistaken(words.month(period), true);
    if (!/^\d{4}-/.test(today) || dayOf(today) === null) throw new Mistaken(words.date(today), true);
    return { period, today };
}

function parsed(args) {
    try {
        return parseArgs({ args: withCeiling(args), options: OPTIONS, allowPositionals: true });
    } catch (error) {
        throw new Mistaken(error.message.split(/\.\s/)[0], true);
    }
}

/** The words with a negative ceiling as one of them: by itself it would be taken for an option. */
function withCeiling(args) {
    const at = args.findIndex((word, i) => word === '--ceiling' && /^-\d/.test(args[i + 1] ?? ''));
    return at < 0 ? args : args.toSpliced(at, 2, `--ceiling=${args[at + 1]}`);
}

/** The version's number, which stands in the C header alone. */
function versionLine() {
    const header = fs.readFileSync(path.join(ROOT, 'include/milecopper.h'), 'utf8');
    const part = (name) => new RegExp(`^#define MILECOPPER_VERSION_${name} (\\d+)`, 'm').exec(header)[1];
    return `milecopper ${['MAJOR', 'MINOR', 'PATCH'].map(part).join('.')}\n`;
}

// ---- What is done

async function perform(call) {
    const { folder, period, language, words, today, strict, ceiling, 'new-tariff': newTariff } = call;
    const found = await orMistaken(language, () => fs.readdirSync(folder), (why) => words.folder(folder, why));
    const files = await prepared(filesOf(call, found));
    const engine = await orMistaken(language, () => engineOf(words), words.engineless);
    const progress = progressLine(words);
    const asked = { correct: call.action === CORRECT, reopen: call.reopen };
    const options = { engine, files, period, language, today, strict, ceiling, newTariff, progress, ...asked };
    const result = runDesk(options);
    const books = [files.books].flat().find(({ name }) => name === result.booksFile);
    if (books) tell(words.books(books.place));
    if (result.corrections) tell(words.corrections(files.corrections.place, result.corrections));
    agreed(call, () => agreeStatements(result));
    await ACTIONS[call.action](call, result, options);
    if (result.errors > 0) return MISTAKEN;
    return result.refused > 0 ? TRIP_REFUSED : ALL_PRICED;
}

/** The engine, built where it is not there: the toolchain is asked for only then. */
async function engineOf(words) {
    const wasm = await builtWasm(ROOT, words, tell);
    if (wasm === null) throw new Mistaken(words.unbuilt);
    return loadEngine(fs.readFileSync(wasm));
}

/** The files of the call, those that are not named from the folder, in which `found` lies. */
function filesOf(call, found) {
    const { folder, words, language } = call;
    const inFolder = (names) => names.map((name) => path.join(folder, name));
    const places = {
        areas: call.areas ?? inFolder(tablesIn(found, /^areas(-.*)?\.\w+$/, 'areas.csv')),
        stops: call.stops ?? inFolder(tablesIn(found, /^stops(-.*)?\.\w+$/, 'stops.csv')),
        members: call.members ? [call.members] : inFolder(tablesIn(found, /^members\.\w+$/)),
        corrections: call.corrections ? [call.corrections] : inFolder(tablesIn(found, /^corrections\.\w+$/)),
        trips: call.trips ?? inFolder(tablesIn(found, /^trips/i, 'trips.csv')),
        books: call.books ?? inFolder(booksAmong(found)),
    };
    if (places.trips.length > 1) tell(words.trips(places.trips));
    const read = Object.entries(places).map(([sort, own]) => [sort, own.map((place) => fileAt(place, language))]);
    const unread = read.flatMap(([, files]) => files).filter(({ why }) => why !== undefined);
    if (unread.length > 0) throw new Mistaken(words.unread(unread));
    const apart = Object.fromEntries(read.map(([sort, files]) => [sort, toldApart(files)]));
    const named = call.books?.length === 1; // one that is named is meant, whatever it closes
    const [members, corrections] = [apart.members[0], apart.corrections[0]];
    return { ...apart, members, corrections, books: named ? apart.books[0] : apart.books };
}

/** A folder's tables of such a name, in order, those that are saved as CSV as that; of none the one that is due. */
function tablesIn(found, pattern, ...due) {
    const saved = new Set(found.filter((name) => /\.csv$/i.test(name)).map((name) => path.parse(name).name));
    const isTable = (name) => /\.csv$/i.test(name) || (/\.xlsx$/i.test(name) && !saved.has(path.parse(name).name));
    const names = found.filter((name) => pattern.test(name) && isTable(name)).sort();
    return names.length > 0 ? names : due;
}

/** Those of a folder's books, whatever they close. */
function booksAmong(found) {
    return found.filter((name) => /^books.*\.json$/i.test(name)).sort();
}

/** Files of one name are known by their places. */
function toldApart(files) {
    const same = ({ name }) => files.filter((other) => other.name === name).length > 1;
    return files.map((file) => (same(file) ? { ...file, name: file.place } : file));
}

/** A file's place, name and bytes, or `why` these cannot be read. */
function fileAt(place, language) {
    try {
        return { place, name: path.basename(place), bytes: new Uint8Array(fs.readFileSync(place)) };
    } catch (error) {
        return { place, why: reasonText(error, language) };
    }
}

/** A line that counts the trips, where somebody watches. */
function progressLine(words) {
    if (!process.stderr.isTTY) return undefined;
    let last = 0;
    return (done, all) => {
        if (Date.now() - last < 100 && done < all) return;
        last = Date.now();
        process.stderr.write(done < all ? `\r${words.progress(done, all)}` : '\r\u001b[K');
    };
}

// ---- A torn roll

async function salvage(call) {
    const { roll, out, language, words } = call;
    const told = { ...words, building: words.salvager };
    const program = await orMistaken(language, () => builtSalvager(ROOT, told, tell), words.salvagerless);
    if (program === null) throw new Mistaken(words.salvagerless(words.unmade));
    const file = path.join(out, KEPT);
    if (isSame(roll, file)) throw new Mistaken(words.itself(file));
    await orMistaken(language, () => fs.rmSync(file, { force: true }), (why) => words.unwritten(out, why));
    const found = await orMistaken(language, () => salvaged(program, roll), (why) => words.unsalvaged(roll, why));
    if (found === null) throw new Mistaken(words.tooLong(roll));
    await orMistaken(language, () => writeFiles(out, [[KEPT, found.kept]]), (why) => words.unwritten(out, why));
    process.stdout.write(lostLines(call, found, file).map((line) => `${line}\n`).join(''));
    return found.lost.length > 0 ? BYTES_LOST : NOTHING_LOST;
}

/** What is kept may not take the place of the roll that it is kept of. */
function isSame(place, other) {
    try {
        return fs.realpathSync(place) === fs.realpathSync(other);
    } catch {
        return false;
    }
}

function lostLines({ table, words }, { trips, lost }, file) {
    if (table) return ['offset;length', ...lost.map(({ offset, length }) => `${offset};${length}`)];
    const bytes = lost.reduce((sum, { length }) => sum + length, 0);
    const runs = lost.map(({ offset, length }) => words.lost(offset, length));
    return [words.salvaged(trips, bytes), ...runs, words.wrote(file)];
}

// ---- What is put out

/** Errors first, then warnings, each as one line. */
function mistakeLines({ mistakes, language }) {
    const of = (kind) => mistakes.filter((mistake) => mistake.kind === kind);
    return [...of('error'), ...of('warning')].map((mistake) => mistakeLine(mistake, language));
}

function checked({ words }, result) {
    const trips = result.wages.reduce((sum, row) => sum + row.trips, 0);
    const tail = result.errors > 0 ? [] : [words.priced(trips, result.members.length)];
    process.stdout.write([...mistakeLines(result), words.found(result), ...tail].map((line) => `${line}\n`).join(''));
}

/** Tells the mistakes; with errors among them nothing else is put out. */
function isClean(result) {
    for (const line of mistakeLines(result)) process.stderr.write(`${line}\n`);
    return result.errors === 0;
}

async function settled(call, result) {
    if (!isClean(result)) return;
    await put(call, [[`charges.${call.format}`, chargesText(asked(call, result), call.format, call.language)]]);
}

async function waged(call, result) {
    if (!isClean(result)) return;
    await put(call, [[`wages.${call.format}`, wagesText(asked(call, result), call.format, call.language)]]);
}

/** The differences and, with supplements, the wages. Closed books are replaced where they lie, and only if asked. */
async function corrected(call, result, options) {
    if (!isClean(result)) return;
    const { format, language, words } = call;
    const { period, months, supplements } = result;
    if (months.some(({ month, closed: is }) => is && month === period)) throw new Mistaken(words.openOnly(period));
    const { files, fault } = call.reopen ? reopenedBooks(options, result) : { files: [], fault: null };
    if (fault) throw new Mistaken(words.unopened(fault));
    const wages = supplements.length > 0 ? [[`wages.${format}`, wagesText(result, format, language)]] : [];
    await put(call, [[`differences.${format}`, differencesText(result, format, language)], ...wages]);
    for (const { name, bytes } of files) {
        const { place } = [options.files.books].flat().find((own) => own.name === name);
        await put({ ...call, out: path.dirname(place) }, [[path.basename(place), bytes]]);
    }
}

/** What the tables are made of: all of it, or of the member who is asked for. */
function asked({ member, words }, result) {
    if (member === undefined) return result;
    const { tariff, tripFiles, roster, ceiling, corrections } = result;
    const members = membersOf(result).filter(({ name }) => name === member);
    if (members.length === 0) throw new Mistaken(words.member(member));
    const wages = result.wages.filter((row) => row.member === member);
    return { tariff, tripFiles, roster, ceiling, corrections, members, wages };
}

async function stated(call, result) {
    if (!isClean(result)) return;
    const due = membersOf(asked(call, result));
    const names = fileSafe(due.map(({ name }) => name));
    const texts = agreed(call, () => due.map((member) => statementText(member, result, call.language)));
    await put(call, texts.map((text, i) => [`statement-${names[i]}.txt`, text]));
}

/** What is made; where sums disagree, nothing. */
function agreed({ language }, make) {
    try {
        return make();
    } catch (error) {
        if (!(error instanceof Disagreement)) throw error;
        throw new Mistaken(mistakeText({ key: 'disagreement', values: error }, language));
    }
}

async function closed(call, result) {
    if (!isClean(result)) return;
    if (result.period === null) throw new Mistaken(call.words.due, true);
    const out = call.out ?? call.folder;
    const name = booksName(result.period);
    refuseClosing(call, result.closing, path.join(out, name));
    await put({ ...call, out }, [[name, booksText(result)]]);
}

/** A month is closed once; and where closing it is likely not meant, only if it is asked for once more. */
function refuseClosing({ force, words }, closing, file) {
    const twice = closing.find(({ key }) => key === 'closeTwice');
    if (fs.existsSync(file)) throw new Mistaken(words.there(file));
    if (twice) throw new Mistaken(twice.text);
    for (const { text } of closing.filter(({ kind }) => kind === 'warning')) tell(text);
    const doubts = closing.filter(({ kind }) => kind === 'error');
    if (doubts.length > 0 && !force) throw new Mistaken(words.doubts(doubts));
}

/** Texts with their files' names: into the folder that is asked for, or printed. */
async function put({ out, words, language }, files) {
    if (out === undefined) {
        process.stdout.write(files.map(([, text]) => text).join('\n'));
        return;
    }
    const written = await orMistaken(language, () => writeFiles(out, files), (why) => words.unwritten(out, why));
    for (const file of written) process.stdout.write(`${words.wrote(file)}\n`);
}
