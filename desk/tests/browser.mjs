// A browser for the tests: Debian's chromium without a window, spoken to by its DevTools protocol over two pipes.
import { spawn } from 'node:child_process';
import { mkdtempSync, rmSync } from 'node:fs';
import os from 'node:os';
import path from 'node:path';

const ROOT_NEEDS = process.getuid?.() === 0 ? ['--no-sandbox'] : [];
export const PATIENCE = 120000; // milliseconds, since machines may be busy

const pause = () => new Promise((done) => setTimeout(done, 25));

/** Waits until something is true. */
export async function until(isTrue, what) {
    for (const end = Date.now() + PATIENCE; !(await isTrue()); await pause()) {
        if (Date.now() > end) throw new Error(`never came: ${what}`);
    }
}

/** Starts the browser with a fresh profile. `page(url, first)` opens a page, with a script that runs before its own. */
export async function startBrowser() {
    const folder = mkdtempSync(path.join(os.tmpdir(), 'milecopper-browser-'));
    const own = ['--headless=new', '--remote-debugging-pipe', `--user-data-dir=${folder}/profile`, ...ROOT_NEEDS];
    const words = [...own, '--disable-gpu', '--no-first-run', '--disable-background-networking', 'about:blank'];
    const child = spawn('chromium', words, { stdio: ['ignore', 'ignore', 'ignore', 'pipe', 'pipe'] });
    const ended = new Promise((done) => child.once('exit', done));
    const talk = talkOver(child.stdio[3], child.stdio[4], ended);
    const close = async () => {
        await talk.send('Browser.close').catch(() => {});
        await ended;
        rmSync(folder, { recursive: true, force: true, maxRetries: 5 });
    };
    return { folder, send: talk.send, page: (url, first) => openPage(talk, url, first), close };
}

/** Commands and answers as JSON with a zero byte behind each; events go to whoever listens. */
function talkOver(out, back, ended) {
    const waiting = new Map();
    const listeners = new Set();
    let [number, rest] = [0, ''];
    back.setEncoding('utf8').on('data', (text) => {
        const messages = (rest + text).split('\0');
        rest = messages.pop();
        for (const message of messages.map((own) => JSON.parse(own))) {
            if (message.id === undefined) for (const listener of listeners) listener(message);
            else waiting.get(message.id)(message);
        }
    });
    const send = (method, params = {}, sessionId = undefined) =>
        new Promise((done, fail) => {
            const id = (number += 1);
            waiting.set(id, ({ error, result }) => {
                if (error) fail(new Error(`${method}: ${error.message}`));
                else done(result);
            });
            ended.then(() => fail(new Error(`${method}: the browser ended`)));
            setTimeout(() => fail(new Error(`${method}: no answer`)), PATIENCE).unref();
            out.write(`${JSON.stringify({ id, method, params, sessionId })}\0`);
        });
    return { send, listen: (listener) => listeners.add(listener) };
}

async function openPage({ send, listen }, url, first = '') {
    const { targetId } = await send('Target.createTarget', { url: 'about:blank' });
    const { sessionId } = await send('Target.attachToTarget', { targetId, flatten: true });
    const own = (method, params) => send(method, params, sessionId);
    const [complaints, requests] = [[], []];
    listen(({ sessionId: of, method, params }) => {
        if (of !== sessionId) return;
        if (method === 'Network.requestWillBeSent') requests.push(params.request.url);
        if (method === 'Runtime.exceptionThrown') complaints.push(params.exceptionDetails.exception?.description);
        if (method === 'Log.entryAdded' && params.entry.level === 'error') complaints.push(params.entry.text);
    });
    for (const domain of ['Page', 'Runtime', 'Network', 'Log', 'DOM']) await own(`${domain}.enable`);
    if (first !== '') await own('Page.addScriptToEvaluateOnNewDocument', { source: first });
    await own('Page.navigate', { url });
    return { send: own, complaints, requests, ...doing(own) };
}

/** What a test does on a page. */
function doing(own) {
    const ask = async (expression) => {
        const asked = { expression, awaitPromise: true, returnByValue: true };
        const { result, exceptionDetails } = await own('Runtime.evaluate', asked);
        if (exceptionDetails) throw new Error(exceptionDetails.exception?.description ?? exceptionDetails.text);
        return result.value;
    };
    const nodeOf = async (selector) => {
        const { root } = await own('DOM.getDocument');
        return (await own('DOM.querySelector', { nodeId: root.nodeId, selector })).nodeId;
    };
    const choose = async (selector, files) => own('DOM.setFileInputFiles', { nodeId: await nodeOf(selector), files });
    const click = (selector) => ask(`document.querySelector(${JSON.stringify(selector)}).click()`);
    const press = async (key, code = key, text = undefined) => {
        const common = { key, code, windowsVirtualKeyCode: { Tab: 9, Enter: 13 }[key], text };
        await own('Input.dispatchKeyEvent', { type: text ? 'keyDown' : 'rawKeyDown', ...common });
        await own('Input.dispatchKeyEvent', { type: 'keyUp', ...common });
    };
    const drop = async (files) => {
        const data = { items: [], files, dragOperationsMask: 1 };
        for (const type of ['dragEnter', 'dragOver', 'drop']) {
            await own('Input.dispatchDragEvent', { type, x: 200, y: 200, data });
        }
    };
    const comes = (expression) => until(() => ask(expression).catch(() => false), expression);
    return { ask, until: comes, choose, click, press, drop };
}
