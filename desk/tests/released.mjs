// usage: node desk/tests/released.mjs page PAGE
//        node desk/tests/released.mjs package FOLDER
//
// Uses what is released as its reader would (host/release-check). page: opens the page in Chromium and tries the sample. package: imports the package
// that is installed in the folder, holds its types to what it exports, and prints the sample's wages. Ends with status 1 where something else comes.
import assert from 'node:assert/strict';
import { readFileSync } from 'node:fs';
import { createRequire } from 'node:module';
import path from 'node:path';
import { pathToFileURL } from 'node:url';
import { startBrowser } from './browser.mjs';

const READY = 'document.querySelector("#wages tbody tr") !== null && document.querySelector("#statement .statement") !== null';

async function usePage(file) {
    const browser = await startBrowser();
    try {
        const page = await browser.page(`${pathToFileURL(path.resolve(file)).href}#try`);
        await page.until(READY);
        const wages = await page.ask('document.querySelector("#wages tbody").textContent');
        assert.match(wages, /Anna Berg.*76,51.*Marta Nowak.*123,90/s);
        assert.deepEqual(page.complaints, []);
        assert.ok(page.requests.every((url) => /^(file|blob):/.test(url)), `asked for: ${page.requests}`);
    } finally {
        await browser.close();
    }
}

/** The names that a file of types declares to be there when it runs. */
const declared = (text) => [...text.matchAll(/^export (?:declare )?(?:const|function) (\w+)/gm)].map(([, name]) => name).sort();

async function usePackage(folder) {
    const { resolve } = createRequire(path.resolve(folder, 'reader.js'));
    const modules = {};
    for (const name of ['milecopper', 'milecopper/desk']) {
        const file = resolve(name);
        modules[name] = await import(pathToFileURL(file).href);
        assert.deepEqual(Object.keys(modules[name]).sort(), declared(readFileSync(file.replace(/\.mjs$/, '.d.ts'), 'utf8')), `the types of ${name}`);
    }
    const { openEngine } = modules.milecopper;
    const { runDesk, wagesText } = modules['milecopper/desk'];
    const sample = path.join(path.dirname(resolve('milecopper')), 'sample');
    const file = (name) => readFileSync(path.join(sample, name), 'utf8');
    const files = { areas: file('areas.csv'), stops: file('stops.csv'), trips: file('trips.csv') };
    const result = runDesk({ engine: await openEngine(), files, period: '2026-10' });
    process.stdout.write(wagesText(result, 'csv', 'de'));
}

const [what, given] = process.argv.slice(2);
await { page: usePage, package: usePackage }[what](given);
