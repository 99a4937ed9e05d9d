// node.js: fcanon for Node. It is ready when it is imported.

import { readFileSync } from 'node:fs';
import { start } from './calls.js';

start(new WebAssembly.Module(readFileSync(new URL('fcanon.wasm', import.meta.url))));

export default async function init() {}

export { GAMES } from './calls.js';
export { Board, FcanonError, Passage, canonicalizeAll, findFlaw } from './fcanon.js';
