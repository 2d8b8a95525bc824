// Robequarry for JavaScript in Node: as robequarry.js, and `load` also takes the path of a file.
import { readFile } from 'node:fs/promises';
import { load as loadFrom } from './robequarry.js';

export * from './robequarry.js';

/** From bytes, a module, a response, an address, or the path of a file; without any, the module that stands beside this one. */
export async function load(source = new URL('robequarry.wasm', import.meta.url)) {
  const found = await source;
  const named = typeof found === 'string' || found instanceof URL;
  if (!named || /^(https?|data|blob):/.test(String(found))) return loadFrom(found);
  return loadFrom(readFile(String(found).startsWith('file:') ? new URL(found) : found));
}
