// What the command runs, where it comes as a package: nothing is built here. The engine stands in the package; the program that salvages rolls, which
// is no JavaScript, comes with the archive for Linux.
import fs from 'node:fs';
import path from 'node:path';

/** The path of milecopper.wasm. */
export const builtWasm = async (root) => path.join(root, 'milecopper.wasm');

/** The path of the program that salvages rolls, from the folders in which programs are looked for. */
export async function builtSalvager() {
    const places = (process.env.PATH ?? '').split(path.delimiter).map((folder) => path.join(folder, 'salvage_roll'));
    const found = places.find((place) => fs.existsSync(place));
    if (found === undefined) throw new Error('no salvage_roll on the PATH');
    return found;
}
