// usage: node desk/package/make.mjs FOLDER WASM VERSION
//
// Puts the package for Node into a folder that is there: the desk's modules, the engine beside them, and what is the package's own. In the package
// the command has another name than in a checkout, and builds nothing.
import { copyFileSync, cpSync, mkdirSync, readFileSync, readdirSync, writeFileSync } from 'node:fs';
import path from 'node:path';
import { fileURLToPath } from 'node:url';

const HERE = path.dirname(fileURLToPath(import.meta.url));
const DESK = path.dirname(HERE);
const [folder, wasm, version] = process.argv.slice(2);

const OWN = ['README.md', 'desk.d.ts', 'desk.mjs', 'index.d.ts', 'index.mjs'];

/** What the command says of itself in a checkout and not here, of either language. */
const UNSAID = [/^Der Rechenkern wird beim ersten Mal gebaut.*\n/m, /^The engine is built the first time.*\n/m];

const manifest = {
    name: 'milecopper',
    version,
    description: 'Prices trips and charges them against a book of 24-hour caps, by a proved library',
    type: 'module',
    engines: { node: '>=20' },
    bin: { milecopper: 'bin/milecopper.mjs' },
    types: './index.d.ts',
    exports: {
        '.': { types: './index.d.ts', default: './index.mjs' },
        './desk': { types: './desk.d.ts', default: './desk.mjs' },
        './milecopper.wasm': './milecopper.wasm',
        './package.json': './package.json',
    },
};

/** A module of the desk as the package has it. */
function packed(name) {
    const text = readFileSync(path.join(DESK, name), 'utf8').replaceAll('./milecopper:', 'milecopper:').replaceAll('./milecopper ', 'milecopper ');
    if (name !== 'usage.mjs') return text;
    return UNSAID.reduce((left, line) => {
        if (!line.test(left)) throw new Error(`${name} has no line ${line}`);
        return left.replace(line, '');
    }, text);
}

for (const own of ['bin', 'desk', 'include', 'sample']) mkdirSync(path.join(folder, own));
for (const name of readdirSync(DESK).filter((own) => own.endsWith('.mjs') && own !== 'building.mjs')) {
    writeFileSync(path.join(folder, 'desk', name), packed(name));
}
copyFileSync(path.join(HERE, 'building.mjs'), path.join(folder, 'desk/building.mjs'));
copyFileSync(path.join(HERE, 'milecopper.mjs'), path.join(folder, 'bin/milecopper.mjs'));
for (const name of OWN) copyFileSync(path.join(HERE, name), path.join(folder, name));
copyFileSync(path.join(DESK, '../include/milecopper.h'), path.join(folder, 'include/milecopper.h')); // has the version's number
copyFileSync(wasm, path.join(folder, 'milecopper.wasm'));
cpSync(path.join(DESK, 'sample'), path.join(folder, 'sample'), { recursive: true });
writeFileSync(path.join(folder, 'package.json'), `${JSON.stringify(manifest, null, 2)}\n`);
