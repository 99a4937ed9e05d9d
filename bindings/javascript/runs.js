// runs.js: what fcanon's commands print of a text in memory, by the calls of fcanon_runs.h, in the
// WebAssembly module fcanon_runs.wasm.

import { GAMES } from './calls.js';

// tools/tables wrote this from fcanon_runs.h, to the next empty line.
export const COMMANDS = ['show', 'canon', 'check', 'group', 'share', 'expand', 'unique', 'table', 'same', 'symmetries',
  'count', 'closed'];
const FORMATS = ['lines', 'header', 'json'];
const LINES = ['unsaid', 'columns', 'rows'];
const FAULTS = { 1: 'no such game', 10: 'no such task', 11: 'no such format', 12: 'out of memory', 13: 'input too large' };
const [DONE, NO_ROOM, NO_MEMORY] = [0, 9, 12];

const [REQUEST_BYTES, SEED_PLACE, WRITTEN_BYTES] = [24, 16, 24];
const [IMPORT_REQUEST_BYTES, IMPORTED_BYTES, NOTED_PLACE] = [8, 32, 24];

// Before version 19 Node has no crypto here.
function seedByChance() {
  const seed = new Uint8Array(8);
  return globalThis.crypto?.getRandomValues(seed) ?? seed.map(() => 256 * Math.random());
}

const inBytes = (text) => (typeof text === 'string' ? new TextEncoder().encode(text) : text);
const faultOf = (answer) => Object.assign(new Error(FAULTS[answer] ?? `answer ${answer}`), { answer });

export class Runs {
  constructor(exports) {
    this.exports = exports;
  }

  // Makes the runs of the bytes of the module, or of it compiled.
  static async from(source) {
    const made = await WebAssembly.instantiate(source);
    return new Runs((made.instance ?? made).exports);
  }

  // The same at once, of the compiled module.
  static of(module) {
    return new Runs(new WebAssembly.Instance(module).exports);
  }

  // What a command prints of a collection, of how many records, and how many of them are refused.
  run(task, text, { format = 'lines', game = 'freecell', anySize = false } = {}) {
    const input = inBytes(text);
    const words = [COMMANDS.indexOf(task), FORMATS.indexOf(format), GAMES.indexOf(game), Number(anySize)];
    return this.#untilThereIsRoom(input, (room) =>
      this.#lent([REQUEST_BYTES, WRITTEN_BYTES, input.length, room.output], (request, written, given, output) => {
        this.#put(request, words);
        this.#bytes(request + SEED_PLACE, 8).set(seedByChance());
        this.#bytes(given, input.length).set(input);
        const places = [request, given, input.length, output, room.output, written].map(BigInt);
        return this.#taken(this.exports.fcanon_run(...places), written, output);
      }));
  }

  // The collection that `import` makes of a text, what it says of that, and both counts. Lines that may
  // be columns or rows are what is said.
  import(text, { game = 'freecell', lines = 'unsaid' } = {}) {
    const input = inBytes(text);
    const words = [GAMES.indexOf(game), LINES.indexOf(lines)];
    return this.#untilThereIsRoom(input, (room) => {
      const sizes = [IMPORT_REQUEST_BYTES, IMPORTED_BYTES, input.length, room.output, room.notes];
      return this.#lent(sizes, (request, imported, given, output, notes) => {
        this.#put(request, words);
        this.#bytes(given, input.length).set(input);
        const places = [request, given, input.length, output, room.output, notes, room.notes, imported].map(BigInt);
        return this.#taken(this.exports.fcanon_import(...places), imported, output, notes);
      });
    });
  }

  // Calls with room for some output, and once more with what is needed where that was too little.
  #untilThereIsRoom(input, call) {
    const first = call({ output: 2 * input.length + 4096, notes: 4096 });
    return first.needs ? call(first.needs) : first;
  }

  // Takes memory of these sizes, in bytes, for a call, and gives it back after it.
  #lent(sizes, call) {
    const places = sizes.map((size) => Number(this.exports.malloc(BigInt(size))));
    try {
      if (places.includes(0)) throw faultOf(NO_MEMORY);
      return call(...places);
    } finally {
      places.forEach((place) => this.exports.free(BigInt(place)));
    }
  }

  #taken(answer, written, output, notes) {
    if (answer !== DONE && answer !== NO_ROOM) throw faultOf(answer);
    const [length, records, refused] = [0, 8, 16].map((at) => this.#number(written + at));
    const notesLength = notes ? this.#number(written + NOTED_PLACE) : 0;
    if (answer === NO_ROOM) return { needs: { output: length, notes: notesLength } };
    const said = this.#bytes(notes ?? 0, notesLength).slice();
    const status = Number(refused > 0);
    return { text: this.#bytes(output, length).slice(), said, records, refused, status };
  }

  // Puts words of 32 bits one after another.
  #put(place, words) {
    const view = new DataView(this.exports.memory.buffer);
    words.forEach((word, at) => view.setUint32(place + 4 * at, word, true));
  }

  #bytes(place, length) {
    return new Uint8Array(this.exports.memory.buffer, place, length);
  }

  #number(place) {
    return Number(new DataView(this.exports.memory.buffer).getBigUint64(place, true));
  }
}
