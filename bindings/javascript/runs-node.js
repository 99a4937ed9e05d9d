// runs-node.js: whole commands for Node. They are ready when this is imported; the module is loaded at the
// first call.

import { readFileSync } from 'node:fs';
import { Runs } from './runs.js';

let runs = null;

function ready() {
  const file = new URL('fcanon_runs.wasm', import.meta.url);
  runs ??= Runs.of(new WebAssembly.Module(readFileSync(file)));
  return runs;
}

export default async function init() {}

export const run = (command, text, options) => ready().run(command, text, options);
export const importText = (text, options) => ready().import(text, options);
export { COMMANDS, Runs } from './runs.js';
