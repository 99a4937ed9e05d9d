// runs-browser.js: whole commands for browsers and workers. They are ready after `await init()`.

import { moduleOf } from './loading.js';
import { Runs } from './runs.js';

let runs = null;

export default async function init(source = new URL('fcanon_runs.wasm', import.meta.url)) {
  if (runs === null) runs = await Runs.from(await moduleOf(source));
}

function ready() {
  if (runs === null) throw new Error('fcanon/runs is not loaded: write `await init()` before all calls');
  return runs;
}

export const run = (command, text, options) => ready().run(command, text, options);
export const importText = (text, options) => ready().import(text, options);
export { COMMANDS, Runs } from './runs.js';
