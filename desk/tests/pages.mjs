// The desk's page in Chromium, for the tests: made anew, opened from disk, and what is done and seen on it.
import assert from 'node:assert/strict';
import { execFileSync } from 'node:child_process';
import { existsSync, mkdirSync, readFileSync, rmSync } from 'node:fs';
import path from 'node:path';
import { pathToFileURL } from 'node:url';
import { todayIn } from '../clock.mjs';
import { statementHtml } from '../sheets.mjs';
import { membersOf } from '../statement.mjs';
import { startBrowser, until } from './browser.mjs';
import { ROOT, SAMPLE, run } from './support.mjs';

export const [AREAS, STOPS, TRIPS] = ['areas.csv', 'stops.csv', 'trips.csv'].map((name) => path.join(SAMPLE, name));
export const READY = "document.body.dataset.ready === 'true'";
export const SETTLED = `!document.querySelector("#month").hidden && !document.querySelector("#result").hidden
    && document.querySelector("#statement .statement") !== null`;

/** What stands above a statement where nothing was written for it. */
export const letter = () => ({ name: '', contact: '', date: todayIn('Europe/Berlin') });

export const CSS = readFileSync(path.join(ROOT, 'desk/page/statement.css'), 'utf8');

/** The address of the page, made as it is handed out. */
export function madePage() {
    return pathToFileURL(execFileSync(path.join(ROOT, 'host/page'), { encoding: 'utf8' }).trim()).href;
}

/** A browser for the page. `opened(tail, first)` opens it, with a script that runs before the page's own. */
export async function startPages() {
    const address = madePage();
    const browser = await startBrowser();
    const opened = async (tail = '', first = '') => {
        const page = await browser.page(address + tail, first);
        await page.until(READY);
        return page;
    };
    const saved = (page, selector, name) => savedBytes(browser, page, selector, name).then((bytes) => bytes.toString());
    const packed = (page, selector, name) => savedBytes(browser, page, selector, name);
    const quiet = ({ complaints, requests }) => {
        assert.deepEqual(complaints, []);
        const asked = requests.map((url) => url.split('#')[0]).filter((url) => !url.startsWith('blob:'));
        assert.deepEqual([...new Set(asked)], [address]);
    };
    return { browser, folder: browser.folder, address, opened, saved, packed, quiet, close: browser.close };
}

/** What the page saves when a button is pressed. */
async function savedBytes(browser, page, selector, name) {
    const folder = path.join(browser.folder, 'saved');
    const file = path.join(folder, name);
    mkdirSync(folder, { recursive: true });
    rmSync(file, { force: true });
    await browser.send('Browser.setDownloadBehavior', { behavior: 'allow', downloadPath: folder });
    await page.click(selector);
    await until(() => existsSync(file), name);
    return readFileSync(file);
}

/** What the core gives on the sample's tariff and a file of trips. */
export function expected({ trips = TRIPS, ...options } = {}) {
    return run(readFileSync(trips, 'utf8'), { period: '2026-10', language: 'de', ...options });
}

/** The statement that is shown is the one that the core writes, element by element. */
export async function showsStatement(page, name, result, language = 'de', head = letter()) {
    const member = membersOf(result).find((own) => own.name === name);
    await page.until(`document.querySelector('#statement h2')?.textContent === ${JSON.stringify(name)}`);
    const [shown, due] = await page.ask(`(() => {
        const due = document.createElement('div');
        due.innerHTML = ${JSON.stringify(statementHtml(member, result, language, head))};
        return [document.querySelector('#statement').innerHTML, due.innerHTML];
    })()`);
    const differ = Math.max(60, due.split('').findIndex((sign, i) => sign !== shown[i]));
    assert.ok(shown === due, `${shown.slice(differ - 60, differ + 60)}, not ${due.slice(differ - 60, differ + 60)}`);
}

export async function chooseMonth(page, value) {
    await page.ask(`(() => {
        const select = document.querySelector('#period');
        select.value = '${value}';
        select.dispatchEvent(new Event('change', { bubbles: true }));
    })()`);
    await page.until(`${SETTLED} && document.querySelector('#period').value === '${value}'`);
}

export const hidden = (page, ...ids) =>
    page.ask(`${JSON.stringify(ids)}.map((id) => !document.getElementById(id).checkVisibility())`);

export const text = (page, selector) =>
    page.ask(`document.querySelector(${JSON.stringify(selector)}).textContent.replaceAll('\\u00a0', ' ')`);

/** The cells of rows, without pictures. */
export const cells = (page, selector) =>
    page.ask(`[...document.querySelectorAll(${JSON.stringify(selector)})].map((row) =>
        [...row.cells].filter((cell) => cell.className !== 'bars')
            .map((cell) => cell.textContent.replaceAll('\\u00a0', ' ').trim()))`);

/** What is wider than a screen of 390 px or cut off, among all that is seen. */
export const TOO_WIDE = `[...document.querySelectorAll('body *')].filter((node) => node.checkVisibility())
    .filter((node) => (!node.closest('svg') || node.matches('svg, text')) && !node.matches('[type=file]'))
    .filter((node) => {
        const { left, right, width } = node.getBoundingClientRect();
        const cut = node.clientWidth > 1 && node.scrollWidth > node.clientWidth + 1
            && getComputedStyle(node).overflowX !== 'visible';
        return width > 1 && (right > 390.5 || left < -0.5 || cut);
    }).map((node) => [node.tagName, node.className.baseVal ?? node.className, node.textContent.slice(0, 30)])`;
