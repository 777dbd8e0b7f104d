// What was built and what lies in samples/, for the tests.
import { readFile } from 'node:fs/promises';
import { loadEngine } from '../engine.mjs';

const root = new URL('../../', import.meta.url);
export const bytesOf = async (name) => new Uint8Array(await readFile(new URL(name, root)));
export const textOf = (name) => readFile(new URL(name, root), 'utf8');
export const wasmBytes = () => bytesOf('target/native/milecopper.wasm');
export const builtEngine = async () => loadEngine(await wasmBytes());
