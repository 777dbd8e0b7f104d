// The engine: the proved library, compiled for WebAssembly, which stands beside this file.
import { readFile } from 'node:fs/promises';
import { loadEngine } from './desk/engine.mjs';

export { BOOK_BYTES, KEPT_BYTES, LARGEST_FIELDS_BYTES, LARGEST_STATEMENT_BYTES, LARGEST_TARIFF_BYTES } from './desk/engine.mjs';
export { loadEngine } from './desk/engine.mjs';

/** The package's own milecopper.wasm. */
export const wasm = new URL('./milecopper.wasm', import.meta.url);

/** The engine on the package's own milecopper.wasm. */
export async function openEngine() {
    return loadEngine(await readFile(wasm));
}
