// usage: node desk/page/show.mjs PICTURE
//
// Makes the picture of a statement that the README has.
import { readFileSync, writeFileSync } from 'node:fs';
import path from 'node:path';
import { fileURLToPath } from 'node:url';
import { builtWasm } from '../building.mjs';
import { loadEngine } from '../engine.mjs';
import { shownStatement } from '../shown.mjs';
import { WORDS } from '../usage.mjs';

const ROOT = path.dirname(path.dirname(path.dirname(fileURLToPath(import.meta.url))));
const engine = await builtWasm(ROOT, WORDS.en, (text) => process.stderr.write(`host/pictures: ${text}\n`));
if (engine === null) process.exit(1); // the builder has said why
const read = (name) => readFileSync(path.join(ROOT, name), 'utf8');
writeFileSync(process.argv[2], shownStatement(await loadEngine(new Uint8Array(readFileSync(engine))), read));
