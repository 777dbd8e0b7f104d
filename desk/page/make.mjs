// usage: node desk/page/make.mjs PAGE
//
// Makes the one HTML file: template, styles, sample, engine and the modules as one script. The content policy names the
// sums of script and styles, so that nothing else runs, and allows no network.
import { createHash } from 'node:crypto';
import { readFileSync, writeFileSync } from 'node:fs';
import path from 'node:path';
import { fileURLToPath } from 'node:url';
import { builtWasm } from '../building.mjs';
import { WORDS } from '../usage.mjs';

const HERE = path.dirname(fileURLToPath(import.meta.url));
const DESK = path.dirname(HERE);
const read = (folder, name) => readFileSync(path.join(folder, name), 'utf8');

// ---- Modules as one script
//
// Each module becomes a function that is called once and answers what it exports, those before it that it imports. Only
// the few forms of import and export that the desk's modules have are known; any other stops the making.

const IMPORT = /^import (\{[^}]*\}) from '(\.[^']*)';$/gm;
const EXPORT = /^export (?=(?:async )?(?:function\*?|class|const) (\w+))/gm;

function scriptOf(start) {
    const modules = new Map(); // by path; a module stands behind those that it imports
    addModule(start, modules, []);
    const own = [...modules.values()].map(({ name, body }) => `const ${name} = (() => {\n${body}})();\n`);
    return `'use strict';\n${own.join('')}`;
}

function addModule(file, modules, above) {
    if (above.includes(file)) throw new Error(`${file} imports itself by way of ${above.join(', ')}`);
    if (modules.has(file)) return modules.get(file).name;
    const exports = [];
    const body = readFileSync(file, 'utf8')
        .replace(IMPORT, (_, names, from) => {
            const name = addModule(path.join(path.dirname(file), from), modules, [...above, file]);
            return `const ${names.replaceAll(' as ', ': ')} = ${name};`;
        })
        .replace(EXPORT, (_, name) => (exports.push(name), ''));
    const unknown = /^(?:import|export)\b.*|\bimport\(.*|\bimport\.meta.*/m.exec(body);
    if (unknown) throw new Error(`${file}: '${unknown[0]}' is no form of import or export that is known here`);
    const name = `module${modules.size}`;
    modules.set(file, { name, body: `${body}return { ${exports.join(', ')} };\n` });
    return name;
}

// ---- The page

const sumOf = (text) => `'sha256-${createHash('sha256').update(text).digest('base64')}'`;

function pageOf(engine) {
    const [own, statement] = ['page.css', 'statement.css'].map((name) => read(HERE, name));
    const script = inScript(scriptOf(path.join(HERE, 'page.mjs')), '<\\/script', '<\\!--');
    const parts = {
        'page.css': own,
        'statement.css': statement,
        engine: readFileSync(engine).toString('base64'),
        script,
        policy: [
            ...["default-src 'none'", `script-src ${sumOf(script)} 'wasm-unsafe-eval'`],
            ...['worker-src blob:', `style-src ${sumOf(own)} ${sumOf(statement)}`], // a worker has this policy, too
            ...["base-uri 'none'", "form-action 'none'"],
        ].join('; '),
    };
    return read(HERE, 'index.html').replace(/\{\{([^}]*)\}\}/g, (_, name) => parts[name] ?? inScript(read(DESK, name)));
}

/** A text within a script element, which it must not end; in a script's strings the ending can be written otherwise. */
function inScript(text, ending = null, comment = null) {
    const safe = ending === null ? text : text.replaceAll('</script', ending).replaceAll('<!--', comment);
    if (/<\/script|<!--/i.test(safe)) throw new Error('a text ends the script that it stands in');
    return safe;
}

const engine = await builtWasm(path.dirname(DESK), WORDS.en, (text) => process.stderr.write(`host/page: ${text}\n`));
if (engine === null) process.exit(1); // the builder has said why
writeFileSync(process.argv[2], pageOf(engine));
