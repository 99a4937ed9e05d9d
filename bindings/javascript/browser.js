// browser.js: fcanon for browsers and workers. It is ready after `await init()`.

import { isStarted, start } from './calls.js';
import { moduleOf } from './loading.js';

export default async function init(source = new URL('fcanon.wasm', import.meta.url)) {
  if (!isStarted()) start(await moduleOf(source));
}

export { GAMES } from './calls.js';
export { Board, FcanonError, Passage, canonicalizeAll, findFlaw } from './fcanon.js';
