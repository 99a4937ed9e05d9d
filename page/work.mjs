// What is done over a whole text by the proved runs: on the page's own thread, or in a worker, while the page goes on.

import { GAMES } from '../bindings/javascript/calls.js';
import { Runs } from '../bindings/javascript/runs.js';
import { asText, headersIn } from './lines.mjs';

let module = null; // its bytes
let runs = null;
let worker = null;
const unanswered = []; // what takes the answers of the worker, which answers one message after another

export async function startRuns(bytes) {
  module = bytes;
  runs = await Runs.from(bytes);
}

// What a command prints, by its words, as `table --json`.
function printFor({ command, bytes, game }) {
  const [task, option = '--lines'] = command.split(' ');
  return runs.run(task, bytes, { format: option.slice(2), game: GAMES[game] });
}

// The records of a text: where each begins, and what `table` says of it, column by column.
// What comes before the first header is a record where `table` has a line more than there are headers.
function recordsIn({ bytes, game }) {
  const lines = asText.decode(printFor({ command: 'table --json', bytes, game }).text);
  const said = JSON.parse(`[${lines.trimEnd().replaceAll('\n', ',')}]`);
  const headers = headersIn(bytes);
  const starts = Uint32Array.from(said.length > headers.length ? [0, ...headers] : headers);
  const numbers = new Map();
  const numberOfGroup = (key) => numbers.get(key) ?? numbers.set(key, numbers.size).size - 1;
  return {
    starts,
    groups: Int32Array.from(said.map(({ variant, board }) => (board ? numberOfGroup(`${variant} ${board}`) : -1))),
    names: said.map(({ name, refused }) => name ?? refused),
    faults: said.map(({ place, reason }, at) => ({ at, place, reason })).filter(({ reason }) => reason),
  };
}

const WORK = {
  print: printFor,
  read: recordsIn,
  import: ({ bytes, game, lines }) => runs.import(bytes, { game: GAMES[game], lines }),
};

/** @returns {{ value?: any, fault?: string }} */
export function workAt(it) {
  try {
    return { value: WORK[it.work](it) };
  } catch (error) {
    return { fault: error.message };
  }
}

// Answers one message after another in a worker; the first message has the module.
export function listenInWorker() {
  let started = null;
  globalThis.onmessage = async ({ data }) => {
    started ??= startRuns(data.bytes);
    await started;
    if (!data.work) return;
    const done = workAt(data);
    const arrays = Object.values(done.value ?? {}).filter(ArrayBuffer.isView);
    globalThis.postMessage(done, { transfer: arrays.map(({ buffer }) => buffer) });
  };
}

// Makes the worker, of the script that the page has too; its module goes there first.
function makeWorker() {
  const { textContent } = document.getElementById('engine');
  const script = new Blob([textContent, 'listenInWorker();'], { type: 'text/javascript' });
  worker = new Worker(URL.createObjectURL(script));
  worker.onmessage = ({ data }) => unanswered.shift()(data);
  worker.postMessage({ bytes: module });
}

// Does some work while the page goes on; where no worker can be made, on the page's own thread.
export const later = (work) => new Promise((take) => {
  setTimeout(() => { // what is to be seen meanwhile is drawn first
    try {
      if (!worker) makeWorker();
    } catch {
      return take(workAt(work));
    }
    unanswered.push(take);
    worker.postMessage(work);
  });
});
