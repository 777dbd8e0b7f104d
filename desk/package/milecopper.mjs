#!/usr/bin/env node
// usage: milecopper check|settle|statement|wages|correct|close [FOLDER] ..., or salvage ROLL ...; all of it is desk/command.mjs.
import { main } from '../desk/command.mjs';

try {
    process.exitCode = await main(process.argv.slice(2));
} catch (error) {
    console.error(`milecopper: ${String(error?.message ?? error).split('\n')[0]}`);
    process.exitCode = 2; // 1 would say that a trip was refused
}
