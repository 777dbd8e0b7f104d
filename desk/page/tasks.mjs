// What the page asks to be done. The outcome of the last run stays here, where it was made: of many trips it is large,
// and the page needs only what it shows.
import { booksName, booksText } from '../books.mjs';
import { differencesText } from '../differences.mjs';
import { glanceOf } from '../glance.mjs';
import { reopenedBooks } from '../reopening.mjs';
import { OPEN, runDesk } from '../run.mjs';
import { documentNames, memberDocument, statementHtml, statementsDocument } from '../sheets.mjs';
import { agreeStatements, membersOf } from '../statement.mjs';
import { chargesText, wagesText } from '../wages.mjs';
import { zipOf } from '../zip.mjs';
import { differencesHtml, supplementsHtml } from './differences.mjs';
import { wagesHtml } from './layout.mjs';

/** The tasks, by name: each takes its values and gives what can be sent to another thread. */
export function tasksWith(engine) {
    let [files, result] = [null, null];
    const member = (name) => membersOf(result).find((own) => own.name === name);
    return {
        version: () => engine.version,
        files: (given) => void (files = given),
        run: (values, progress) => summaryOf((result = outcomeOf(engine, files, values, progress))),
        statement: ({ name, letter }) => statementHtml(member(name), result, result.language, letter),
        statements: ({ letter }) => {
            return membersOf(result).map((own) => statementHtml(own, result, result.language, letter)).join('\n');
        },
        reopened: (values) => reopenedBooks({ engine, files, ...values }, result),
        saved: ({ what, name, ...values }) => SAVED[what]({ ...values, result, member: member(name) }),
    };
}

/** The desk's result for the month that is chosen or, where there is none of that name, for the open one. */
function outcomeOf(engine, files, { chosen = OPEN, ...options }, progress) {
    const outcome = (period) => runDesk({ engine, files, period, progress, correct: true, tolerant: true, ...options });
    const first = outcome(chosen);
    const known = chosen === OPEN || chosen === null || first.months.some(({ month }) => month === chosen);
    const result = known ? first : outcome(OPEN);
    agreeStatements(result);
    return result;
}

/** What the page shows of a result. The table of the wages is made here, too, since it can be long. */
function summaryOf(result) {
    const { errors, warnings, months, period, closing, wages, refused, language, association, booksCeiling } = result;
    const { corrections, reopens } = result;
    return {
        ...{ errors, warnings, months, period, closing, refused, association, booksCeiling, reopens },
        corrections: corrections && { corrected: corrections.corrected, cancelled: corrections.cancelled.length },
        trips: wages.reduce((sum, row) => sum + row.trips, 0),
        mistakes: result.mistakes.map(({ file, line, kind, key, text }) => ({ file, line, kind, key, text })),
        members: membersOf(result).map(({ name }) => name),
        wages: wagesHtml(result, glanceOf(result, language), language) + supplementsHtml(result, language),
        differences: differencesHtml(result, language),
    };
}

// ---- What is saved: {name, type, content} each

const CSV = 'text/csv;charset=utf-8';
const HTML = 'text/html;charset=utf-8';
const named = (word, ending, { period }) => `${word}${period === null ? '' : `-${period}`}.${ending}`;

function table(word, text, result) {
    return { name: named(word, 'csv', result), type: CSV, content: text(result, 'csv', result.language) };
}

const SAVED = {
    wages: ({ result }) => table('wages', wagesText, result),
    charges: ({ result }) => table('charges', chargesText, result),
    differences: ({ result }) => table('differences', differencesText, result),
    statements: ({ result, css, letter }) => {
        const content = statementsDocument(result, result.language, css, letter);
        return { name: named('statements', 'html', result), type: HTML, content };
    },
    files: ({ result, css, letter, today }) => {
        const names = documentNames(result);
        const text = (member) => memberDocument(member, result, result.language, css, letter);
        const content = zipOf(membersOf(result).map((member, i) => [names[i], text(member)]), today);
        return { name: named('statements', 'zip', result), type: 'application/zip', content };
    },
    file: ({ result, css, letter, member }) => {
        const name = documentNames(result)[membersOf(result).indexOf(member)];
        return { name, type: HTML, content: memberDocument(member, result, result.language, css, letter) };
    },
    books: ({ result, letter }) => {
        const { name, contact } = letter;
        const content = booksText({ ...result, association: { name, contact } });
        return { name: booksName(result.period), type: 'application/json', content };
    },
};
