// The page: files in by choosing or dropping, the desk's work on them, and its outcome laid out, saved and printed.
// Everything is in `state`, and nothing is kept anywhere else.
import { ceilingOf, monthZoneOf, noCeiling } from '../ceiling.mjs';
import { todayIn } from '../clock.mjs';
import { isWorkbook } from '../encoding.mjs';
import { euros } from '../fields.mjs';
import { mistakeText } from '../mistakes.mjs';
import { monthText } from '../words.mjs';
import { preparedFile } from '../workbook.mjs';
import { clerkWith, serve } from './clerk.mjs';
import { DUE, deskFiles, isRoll, ofDrop, ofFolder, rowsIn, sortOf, withFile } from './files.mjs';
import { LABELS } from './labels.mjs';
import { columnsHtml, doubtsHtml, mistakesCount, mistakesHtml, monthsHtml, slotsHtml } from './layout.mjs';

const NOTHING = {
    ...{ files: [], notices: [], newTariff: false, reopened: null }, // `reopened`: the books that are replaced
    ceiling: null, // as she wrote it, or null: not yet
    ...{ chosen: undefined, result: null, member: null }, // the month that she chose, what came of it, who is shown
};
const state = { language: 'de', turn: 0, ...NOTHING, letter: {} }; // `letter`: who the statements are from, and when
const element = (id) => document.getElementById(id);
const labels = () => LABELS[state.language];
const script = globalThis.document?.currentScript.textContent;
let clerk;

// ---- Files in

async function take(files) {
    const [unknown, rolls, workbooks, unread, told] = [[], [], [], [], []];
    for (const file of files) {
        const taken = await bytesOf(file);
        if (taken === null) unread.push(file.name);
        else if (taken.sort !== null) told.push(...keep(taken));
        else if (isRoll(file)) rolls.push(file.name);
        else (isWorkbook(taken.bytes) ? workbooks : unknown).push(file.name);
    }
    state.notices = [
        ...told,
        ...(unknown.length > 0 ? [labels().unknown(unknown.join(', '))] : []),
        ...(rolls.length > 0 ? [labels().rolls(rolls.join(', '))] : []),
        ...(workbooks.length > 0 ? [labels().workbooks(workbooks.join(', '))] : []),
        ...(unread.length > 0 ? [labels().unread(unread.join(', '))] : []),
    ];
    await work();
}

async function bytesOf(file) {
    try {
        return known(await preparedFile({ name: file.name, bytes: new Uint8Array(await file.arrayBuffer()) }));
    } catch {
        return null;
    }
}

const known = (file) => ({ ...file, sort: sortOf(file), rows: rowsIn(file) });

/** Keeps a file, and answers what is to be said of the one whose place it takes. With books another month is open. */
function keep(file) {
    const { files, replaced } = withFile(state.files, file);
    const open = file.sort === 'books' ? { chosen: undefined } : {};
    Object.assign(state, { files, newTariff: false, reopened: null, ...open });
    if (replaced === null) return [];
    const { replaced: again, inPlaceOf } = labels();
    return [replaced.name === file.name ? again(file.name) : inPlaceOf(file.name, replaced.name)];
}

function remove({ remove: name, sort }) {
    state.files = state.files.filter((file) => file.name !== name || file.sort !== sort);
    Object.assign(state, { notices: [], reopened: null });
    return work();
}

const sampleText = (sort) => element(`sample-${sort}`).textContent;

async function trySample() {
    forget();
    for (const sort of DUE) {
        const bytes = new TextEncoder().encode(sampleText(sort));
        keep({ ...known({ name: `${sort}.csv`, bytes }), sample: true });
    }
    await work();
}

function forget() {
    Object.assign(state, NOTHING);
    element('ceiling').value = '';
    write({ name: '', contact: '', date: today() });
}

// ---- The work

const today = () => todayIn('Europe/Berlin');

/** Has the desk run on what is there, if all is there, and shows what came of it, unless it is out of date by then. */
async function work() {
    const turn = (state.turn += 1);
    state.result = null;
    show();
    const ceiling = ceilingWritten();
    if (ceiling === undefined) return tellCeiling();
    if (!DUE.every((sort) => state.files.some((file) => file.sort === sort))) return;
    tell(labels().working);
    showProgress({});
    await clerk.ask('files', deskFiles(state.files));
    const values = { ...optionsOf(ceiling), chosen: state.chosen };
    const result = await clerk.ask('run', values, (told) => turn === state.turn && showProgress(told));
    if (turn !== state.turn) return;
    if (state.ceiling === null && result.booksCeiling !== null) return rememberCeiling(result.booksCeiling);
    state.result = result;
    rememberSender(result.association);
    show();
    await showStatement();
}

/** The ceiling that she wrote, in cents: null for none, and undefined for what is no amount. */
function ceilingWritten() {
    const text = state.ceiling?.trim() ?? '';
    return text === '' ? null : (ceilingOf(text) ?? undefined);
}

/** Without a right ceiling nothing is priced. */
function tellCeiling() {
    tell(mistakeText(noCeiling(labels().ceiling, state.ceiling.trim()), state.language));
}

/** The ceiling that the books were kept under, as long as she has written none. */
function rememberCeiling(cents) {
    state.ceiling = state.language === 'de' ? euros(cents).replace('.', ',') : euros(cents);
    element('ceiling').value = state.ceiling;
    return work();
}
/** What the desk is told besides the files. */
function optionsOf(ceiling) {
    const { language, newTariff, reopened } = state;
    return { language, newTariff, ceiling, reopen: reopened !== null, today: todayIn(monthZoneOf(ceiling)) };
}

/** The sender that the books name, unless she has written one. */
function rememberSender(association) {
    const { name, contact } = state.letter;
    if (association && name === '' && contact === '') write(association);
}

/** Writes into the fields of the letter. */
function write(letter) {
    Object.assign(state.letter, letter);
    for (const [key, text] of Object.entries(letter)) element(`letter-${key}`).value = text;
}

// ---- What is shown

function tell(text) {
    element('status').textContent = [text, ...state.notices].filter((part) => part !== '').join('\n');
}

/** How far the work is; without numbers, that there is some; of null, nothing. */
function showProgress(told) {
    const bar = element('progress');
    bar.hidden = told === null;
    bar.setAttribute('aria-label', labels().progress);
    if (told?.all) Object.assign(bar, { max: told.all, value: told.done });
    else bar.removeAttribute('value');
}

function show() {
    document.documentElement.lang = state.language;
    document.title = `Milecopper: ${labels().subtitle}`;
    for (const node of document.querySelectorAll('[data-label]')) node.textContent = labels()[node.dataset.label];
    for (const node of document.querySelectorAll('[data-language]')) {
        node.setAttribute('aria-pressed', String(node.dataset.language === state.language));
    }
    element('slots').innerHTML = slotsHtml(state);
    element('columns').innerHTML = columnsHtml(state);
    element('forget').hidden = state.files.length === 0;
    element('ceiling').setAttribute('aria-invalid', String(ceilingWritten() === undefined));
    document.body.classList.toggle('have', DUE.every((sort) => state.files.some((file) => file.sort === sort)));
    showResult();
}

/** With errors the month can still be chosen: it may be what is wrong. */
function showResult() {
    const { result } = state;
    const settled = result !== null && result.errors === 0;
    showProgress(null);
    element('mistakes').hidden = result === null || result.mistakes.length === 0;
    element('month').hidden = result === null || (!settled && result.months.length === 0);
    element('result').hidden = !settled;
    element('one').hidden = true;
    element('statement').innerHTML = '';
    if (result === null) return tell('');
    showMistakes(result);
    element('period').innerHTML = monthsHtml(state);
    if (settled) showWages(result);
    return tell(settled ? statusOf(result) : labels().notPriced);
}

function statusOf({ trips, members, refused, corrections }) {
    const { nothing, priced, refused: told, corrected } = labels();
    const counts = members.length === 0 ? [nothing] : [priced(trips, members.length)];
    const more = corrections ? [corrected(corrections)] : [];
    return [...counts, ...(refused > 0 ? [told(refused)] : []), ...more].join(' ');
}

function showMistakes({ mistakes, errors }) {
    const { mend, look } = labels();
    element('mistakes-heading').textContent = mistakesCount(state);
    element('mistakes-hint').textContent = errors > 0 ? mend : look;
    element('new-tariff').hidden = !mistakes.some(({ key }) => key === 'booksPrices');
    element('mistakes-lists').innerHTML = mistakesHtml(mistakes, state);
    element('mistakes-lists').classList.toggle('short', errors === 0);
}

function showWages({ members, wages, differences, reopens }) {
    if (!members.includes(state.member)) state.member = members[0] ?? null;
    element('wages').innerHTML = wages;
    element('differences').innerHTML = differences;
    element('corrections').hidden = differences === '';
    for (const id of ['reopen', 'reopen-hint']) element(id).hidden = reopens === null;
    element('reopen').disabled = state.reopened !== null;
    element('force').checked = false;
    showClosing();
}

/** Whether the month can be closed, what speaks against it, and that she wants it all the same. */
function showClosing() {
    const { period, months, closing } = state.result;
    const { booksHint, booksHintAll, booksHintClosed } = labels();
    const closed = months.some(({ month, closed: is }) => is && month === period);
    const doubtful = closing.some(({ kind }) => kind === 'error');
    const open = period !== null && !closed;
    element('books-hint').textContent = open ? booksHint : closed ? booksHintClosed : booksHintAll;
    element('doubts').innerHTML = open ? doubtsHtml(state) : '';
    element('sure').hidden = !open || !doubtful;
    element('close').disabled = !open || (doubtful && !element('force').checked);
}

// ---- The statement that is shown

async function showStatement() {
    const { member, turn, letter, result } = state;
    if (result === null || result.errors > 0 || member === null) return;
    const html = await clerk.ask('statement', { name: member, letter });
    if (turn !== state.turn || member !== state.member) return;
    element('statement').innerHTML = html;
    element('one').hidden = false;
    markMember();
}

/** Marks who is shown in the list, and names who comes before and behind. */
function markMember() {
    const { members } = state.result;
    for (const button of document.querySelectorAll('[data-member]')) {
        const current = button.dataset.member === state.member;
        button.toggleAttribute('aria-current', current);
        button.closest('tr').classList.toggle('current', current);
    }
    for (const button of document.querySelectorAll('[data-step]')) {
        const name = members[members.indexOf(state.member) + Number(button.dataset.step)] ?? '';
        button.disabled = name === '';
        button.title = labels().steps[button.dataset.step](name);
        button.setAttribute('aria-label', button.title);
    }
}

async function showMember(name) {
    state.member = name;
    await showStatement();
    element('one').scrollIntoView({ block: 'start' });
    tell(labels().shown(name));
}

function step(by) {
    const { members } = state.result;
    return showMember(members[members.indexOf(state.member) + Number(by)]);
}

// ---- Out: saving and printing

async function saved(what) {
    const { letter, member: name } = state;
    const css = element('statement-style').textContent;
    const file = await clerk.ask('saved', { what, name, letter, css, today: today() });
    download(file);
    return file;
}

function download({ name, type, content }) {
    const link = document.createElement('a');
    link.href = URL.createObjectURL(new Blob([content], { type }));
    link.download = name;
    link.click();
    setTimeout(() => URL.revokeObjectURL(link.href), 10000);
    tell(labels().saved(name));
}

/** Saves the books, and goes on from them to the month that is open then. */
async function closeMonth() {
    const month = monthText(state.result.period, state.language);
    const { name, content } = await saved('books');
    const closed = { name, bytes: new TextEncoder().encode(content) };
    for (const file of [...(state.reopened ?? []), closed]) keep(known(file));
    state.notices = [labels().closed(month, name)];
    await work();
}

/** Saves new books in the place of closed ones, and has the open month go on from them. */
async function reopen() {
    const { files, fault } = await clerk.ask('reopened', optionsOf(ceilingWritten()));
    for (const { name, bytes } of files) download({ name, type: 'application/json', content: bytes });
    if (fault === null) state.reopened = files;
    state.notices = [fault ? labels().unopened(fault) : labels().reopened(files.map(({ name }) => name).join(', '))];
    await work();
}

/** All statements are there only while they are printed: of a thousand members they would be a heavy page. */
async function printAll() {
    element('all').innerHTML = await clerk.ask('statements', { letter: state.letter });
    window.print();
}

// ---- What she does

function listen() {
    const on = (id, event, act) => element(id).addEventListener(event, act);
    on('choose-files', 'change', ({ target }) => takeFrom(target, target.files));
    on('choose-folder', 'change', ({ target }) => takeFrom(target, ofFolder(target.files)));
    on('sample', 'click', trySample);
    on('forget', 'click', () => (forget(), work(), element('choose-files').focus()));
    on('ceiling', 'change', ({ target }) => ((state.ceiling = target.value), work()));
    on('period', 'change', ({ target }) => ((state.chosen = target.value || null), work()));
    on('new-tariff', 'click', () => ((state.newTariff = true), work()));
    on('force', 'change', showClosing);
    on('close', 'click', closeMonth);
    on('reopen', 'click', reopen);
    on('print-one', 'click', () => window.print());
    on('print-all', 'click', printAll);
    on('to-list', 'click', toList);
    for (const key of Object.keys(state.letter)) {
        on(`letter-${key}`, 'change', ({ target }) => ((state.letter[key] = target.value.trim()), showStatement()));
    }
    window.addEventListener('afterprint', () => (element('all').innerHTML = ''));
    document.addEventListener('click', ({ target }) => clicked(target.closest('button')));
    listenToDrops();
    window.addEventListener('unhandledrejection', ({ reason }) => failed(reason));
    window.addEventListener('error', ({ error }) => failed(error));
}

/** What must not be: sums that disagree, say. It is told, and nothing is put out. */
function failed(error) {
    state.result = null;
    show();
    tell(labels().failed(error?.message ?? String(error)));
}

/** Takes what was chosen, and lets the same file be chosen again: it may have been mended meanwhile. */
function takeFrom(input, files) {
    const chosen = [...files];
    input.value = '';
    return take(chosen);
}

function toList() {
    element('month').scrollIntoView({ block: 'start' });
    document.querySelector('[data-member][aria-current]')?.focus({ preventScroll: true });
}

function clicked(button) {
    const { language, save, member, sample, remove: name, step: by } = button?.dataset ?? {};
    if (save) saved(save);
    else if (member) showMember(member);
    else if (by) step(by);
    else if (name) remove(button.dataset);
    else if (sample) download({ name: `${sample}.csv`, type: 'text/csv;charset=utf-8', content: sampleText(sample) });
    else if (language) changeLanguage(language);
}

/** The mistakes are told anew, since their words are those of a run. */
function changeLanguage(language) {
    state.language = language;
    state.notices = [];
    work();
}

function listenToDrops() {
    const over = (is) => document.body.classList.toggle('over', is);
    document.addEventListener('dragover', (event) => (event.preventDefault(), over(true)));
    document.addEventListener('dragleave', ({ relatedTarget }) => relatedTarget === null && over(false));
    document.addEventListener('drop', async (event) => {
        event.preventDefault();
        over(false);
        await take(await ofDrop(event.dataTransfer));
    });
}

/** The page's start: the engine from the page itself. '#try' at the address's end begins with the sample. */
async function begin() {
    const engine = Uint8Array.from(atob(element('engine').textContent), (sign) => sign.charCodeAt(0));
    clerk = await clerkWith(script, engine);
    document.body.dataset.work = clerk.where;
    element('version').textContent = `Milecopper ${await clerk.ask('version')}`;
    forget();
    listen();
    show();
    if (location.hash === '#try') await trySample();
    document.body.dataset.ready = 'true';
}

if (globalThis.document) begin();
else serve(globalThis);
