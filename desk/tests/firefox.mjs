// Firefox for the tests, without a window, spoken to by its Marionette protocol: JSON behind its length, over a socket.
import { spawn, spawnSync } from 'node:child_process';
import { mkdtempSync, readFileSync, rmSync, writeFileSync } from 'node:fs';
import net from 'node:net';
import os from 'node:os';
import path from 'node:path';
import { PATIENCE, until } from './browser.mjs';

/** The program's name; undefined where there is none. */
export const FIREFOX = ['firefox-esr', 'firefox'].find((name) => spawnSync(name, ['--version']).status === 0);

const PREFERENCES = {
    'marionette.port': 0, // a free one, which it then writes into the profile
    'browser.download.folderList': 2, // a folder of one's own, which is named besides
    'browser.shell.checkDefaultBrowser': false,
    'datareporting.policy.dataSubmissionEnabled': false,
    'toolkit.telemetry.server': '',
    'app.update.enabled': false,
    'network.captive-portal-service.enabled': false,
    'network.connectivity-service.enabled': false,
};

/** Starts Firefox with a fresh profile. `page(url)` opens a page in its one window, which saves in `saved`. */
export async function startFirefox() {
    try {
        return await started();
    } catch {
        return started(); // a busy machine's first try may never be answered
    }
}

async function started() {
    const folder = mkdtempSync(path.join(os.tmpdir(), 'milecopper-firefox-'));
    const saved = path.join(folder, 'saved');
    const told = Object.entries({ ...PREFERENCES, 'browser.download.dir': saved });
    const lines = told.map(([name, value]) => `user_pref(${JSON.stringify(name)}, ${JSON.stringify(value)});\n`);
    writeFileSync(path.join(folder, 'user.js'), lines.join(''));
    const words = ['--headless', '--no-remote', '--marionette', '--profile', folder, 'about:blank'];
    const child = spawn(FIREFOX, words, { stdio: 'ignore' });
    const ended = new Promise((done) => child.once('exit', done));
    const removed = async () => {
        await ended;
        rmSync(folder, { recursive: true, force: true, maxRetries: 5 });
    };
    try {
        const { send, hangUp } = await talkTo(await portIn(path.join(folder, 'MarionetteActivePort')), ended);
        await send('WebDriver:NewSession', { capabilities: { alwaysMatch: { acceptInsecureCerts: false } } });
        const close = async () => {
            await send('Marionette:Quit', { flags: ['eForceQuit'] }).catch(() => {});
            hangUp();
            await removed();
        };
        return { folder, saved, page: (url) => openPage(send, url), close };
    } catch (error) {
        child.kill('SIGKILL');
        await removed();
        throw error;
    }
}

async function portIn(file) {
    let port = NaN;
    await until(() => {
        try {
            port = Number(readFileSync(file, 'utf8'));
        } catch {
            return false;
        }
        return port > 0;
    }, 'the port of Firefox');
    return port;
}

/** Commands are [0, number, name, values], answers [1, number, error, result]. */
async function talkTo(port, ended) {
    const socket = net.connect(port, '127.0.0.1');
    const waiting = new Map();
    let rest = Buffer.alloc(0);
    socket.on('data', (bytes) => {
        rest = takeMessages(Buffer.concat([rest, bytes]), ([, number, error, result]) => {
            const { done, fail } = waiting.get(number);
            if (error) fail(new Error(`${error.error}: ${error.message}`));
            else done(result);
        });
    });
    let number = 0;
    const send = (name, values = {}) =>
        new Promise((done, fail) => {
            number += 1;
            waiting.set(number, { done, fail });
            ended.then(() => fail(new Error(`${name}: Firefox ended`)));
            setTimeout(() => fail(new Error(`${name}: no answer`)), PATIENCE).unref();
            const text = JSON.stringify([0, number, name, values]);
            socket.write(`${Buffer.byteLength(text)}:${text}`);
        });
    await new Promise((done, fail) => socket.once('connect', done).once('error', fail));
    return { send, hangUp: () => socket.destroy() };
}

/** Gives each whole message to `take`, but the greeting, and answers the bytes behind them. */
function takeMessages(bytes, take) {
    let rest = bytes;
    for (;;) {
        const colon = rest.indexOf(':');
        const end = colon + 1 + Number(rest.subarray(0, Math.max(0, colon)).toString());
        if (colon < 0 || rest.length < end) return rest;
        const message = JSON.parse(rest.subarray(colon + 1, end).toString());
        if (Array.isArray(message)) take(message);
        rest = rest.subarray(end);
    }
}

/** What a test does on a page. */
async function openPage(send, url) {
    await send('WebDriver:Navigate', { url });
    const ask = async (expression) => {
        const script = `const done = arguments[arguments.length - 1];
            Promise.resolve().then(() => (${expression}))
                .then((value) => done({ value }), (error) => done({ error: String(error) }));`;
        const { value } = await send('WebDriver:ExecuteAsyncScript', { script, args: [] });
        if (value.error !== undefined) throw new Error(value.error);
        return value.value;
    };
    const comes = (expression) => until(() => ask(expression).catch(() => false), expression);
    const choose = async (selector, files) => {
        const { value } = await send('WebDriver:FindElement', { using: 'css selector', value: selector });
        await send('WebDriver:ElementSendKeys', { id: Object.values(value)[0], text: files.join('\n') });
    };
    const click = (selector) => ask(`document.querySelector(${JSON.stringify(selector)}).click()`);
    const printed = async () => Buffer.from((await send('WebDriver:Print', { background: true })).value, 'base64');
    const picture = async () => Buffer.from((await send('WebDriver:TakeScreenshot', { full: true })).value, 'base64');
    return { ask, until: comes, choose, click, printed, picture, send };
}
