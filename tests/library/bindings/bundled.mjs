// bundled.mjs: a page's use of the JavaScript package, which a bundler puts into one file. What is not as it
// must be has a line; `ended` is awaited.

import init, { Board } from 'fcanon';
import initRuns, { run } from 'fcanon/runs';

for (const call of [() => Board.deal(1), () => run('show', '')]) {
  let why = '';
  try {
    call();
  } catch (error) {
    why = error.message;
  }
  if (!/await init/.test(why)) console.log(`before init: ${why}`);
}
async function tryBoth() {
  await initRuns(globalThis.runsModule);
  if (run('show', '').records !== 0) console.log('an empty collection has records');
  await init(globalThis.fcanonModule);
  const carried = Board.deal(1).canonicalize().passage.carry('3a');
  if (carried !== '6a') console.log(`3a is carried to ${carried}`);
}
globalThis.ended = tryBoth();
