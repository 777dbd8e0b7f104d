// Files that are written whole or not at all: each is written beside its place, and all are then renamed.
import fs from 'node:fs';
import path from 'node:path';

/** Writes texts under names into a folder, which is made if it is not there; answers their paths. */
export function writeFiles(folder, files) {
    fs.mkdirSync(folder, { recursive: true });
    const places = files.map(([name, text], i) => {
        return { to: path.join(folder, name), beside: path.join(folder, `.milecopper-${process.pid}-${i}`), text };
    });
    try {
        for (const { beside, text } of places) writeThrough(beside, text);
        for (const { beside, to } of places) fs.renameSync(beside, to);
    } finally {
        for (const { beside } of places) fs.rmSync(beside, { force: true });
    }
    return places.map(({ to }) => to);
}

/** The bytes are on the disk before the file gets its name. */
function writeThrough(name, text) {
    const file = fs.openSync(name, 'wx');
    try {
        fs.writeFileSync(file, text);
        fs.fsyncSync(file);
    } finally {
        fs.closeSync(file);
    }
}
