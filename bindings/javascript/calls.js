// calls.js: the calls of fcanon.h over numbers and arrays of bytes, in the WebAssembly module
// fcanon.wasm. The package and the page of fcanon make all their calls here.

// tools/tables wrote this from fcanon.h, to the next empty line.
export const GAMES = ['freecell', 'bakers_game', 'eight_off'];
export const CELL_COUNTS = [4, 4, 8];
export const MOST_MOVES = 49;
export const MOST_CHILDREN = 272;
export const MOST_RUN_MOVES = 672;
const FIRST_MISSING_CARD = 128;

export const SUITS = 'CDHS';
export const RANKS = 'A23456789TJQK';
export const CELLS = 'abcdefgk';

/** @type {any} */
let calls = null;
let firstFree = 0; // the place after the module's data

// Takes the compiled module that all calls go to.
export function start(module) {
  calls = new WebAssembly.Instance(module, {}).exports;
  firstFree = Math.ceil(Number(calls.__heap_base.value) / 16) * 16;
}

export const isStarted = () => calls !== null;

// Makes the memory as large as it must be; pages are counted in 64 bits where addresses have as
// many.
function makeRoom(size) {
  if (calls === null) throw new Error('fcanon is not loaded: write `await init()` before all calls');
  const pages = Math.ceil((size - calls.memory.buffer.byteLength) / 65_536);
  if (pages <= 0) return;
  try {
    calls.memory.grow(pages);
  } catch {
    calls.memory.grow(BigInt(pages));
  }
}

// Makes a call over numbers and arrays of bytes, puts into the arrays what it wrote there, and gives
// its answer.
export function answerOf(name, ...given) {
  let end = firstFree;
  const places = given.map((it) => {
    if (!(it instanceof Uint8Array)) return null;
    const place = end;
    end += Math.ceil((it.length + 1) / 16) * 16;
    return place;
  });
  makeRoom(end);
  const memory = new Uint8Array(calls.memory.buffer);
  places.forEach((place, at) => { if (place !== null) memory.set(given[at], place); });
  const words = given.map((it, at) => (places[at] === null ? it : BigInt(places[at])));
  const answer = calls[`fcanon_${name}`](...words);
  places.forEach((place, at) => {
    if (place !== null) given[at].set(memory.subarray(place, place + given[at].length));
  });
  return answer;
}

// The words for an answer, which the library has in its memory.
export function wordsOf(answer) {
  makeRoom(firstFree + 16);
  calls.fcanon_find_answer_text(answer, BigInt(firstFree));
  const place = Number(new DataView(calls.memory.buffer).getBigUint64(firstFree, true));
  const words = textOf(new Uint8Array(calls.memory.buffer, place, 20));
  const card = answer - FIRST_MISSING_CARD;
  return card >= 0 && card < 52 ? `${words} ${RANKS[card >> 2]}${SUITS[card & 3]}` : words;
}

export const numberIn = (bytes) => Number(new DataView(bytes.buffer).getBigUint64(0, true));
export const textOf = (bytes) => String.fromCharCode(...bytes).replace(/\0+$/, '');
