// fcanon.js: canonical boards of FreeCell, Baker's Game and Eight Off, and moves carried to them.
// fcanon.d.ts says what each method does. Behind it is a call of fcanon.h.

import {
  answerOf, CELL_COUNTS, CELLS, GAMES, MOST_CHILDREN, MOST_MOVES, MOST_RUN_MOVES, numberIn, SUITS, textOf, wordsOf,
} from './calls.js';

const MOST_SYMMETRIES = 24;
const [OPEN, NOT_CLOSED, NOT_AMONG] = [19, 20, 21];

export class FcanonError extends Error {
  constructor(answer, place = null) {
    const reason = wordsOf(answer);
    super(place === null ? reason : `${reason} at ${place}`);
    Object.assign(this, { name: 'FcanonError', answer, reason, place });
  }
}

// Makes a call for a game, which must be answered by 0. The last array of some has the place of what
// is at fault.
function call(name, game, ...given) {
  if (!GAMES.includes(game)) throw new FcanonError(1);
  const answer = answerOf(name, GAMES.indexOf(game), ...given);
  if (answer === 0) return;
  const hasPlace = (name === 'read' && answer >= 64) || (name === 'keys' && answer === 4);
  throw new FcanonError(answer, hasPlace ? numberIn(given.at(-1)) : null);
}

const HEX = Array.from({ length: 256 }, (_, byte) => byte.toString(16).padStart(2, '0'));
const hexOf = (bytes) => bytes.reduce((text, byte) => text + HEX[byte], '');

// ---- moves

function moveOf(text) {
  if (!/^[\x21-\x7e]{2}$/.test(text)) throw new FcanonError(3);
  return Uint8Array.from(text.toLowerCase(), (letter) => letter.charCodeAt(0));
}

function runOf(text) {
  const [, piles, number] = /^(..)(?:v([1-9a-d]))?$/i.exec(text) ?? [null, '', ''];
  return Uint8Array.of(...moveOf(piles), parseInt(number ?? '0', 16));
}

function nameOf([from, to, count = 0]) {
  return String.fromCharCode(from, to) + (count ? `v${count.toString(16)}` : '');
}

// ---- passages and boards

// An own property of each board and of each passage, so that structuredClone makes of them what toJSON does.
const AS_TEXT = {
  enumerable: true,
  get() {
    return String(this);
  },
};
const AS_DIGITS = {
  enumerable: true,
  get() {
    return hexOf(this.bytes);
  },
};

export class Passage {
  #bytes;

  constructor(bytes, game = 'freecell') {
    if (bytes.length !== 20) throw new FcanonError(2);
    this.#bytes = Uint8Array.from(bytes);
    this.game = game;
    call('inverse', game, this.bytes, new Uint8Array(20));
    Object.freeze(Object.defineProperty(this, 'passage', AS_DIGITS));
  }

  get bytes() {
    return this.#bytes.slice();
  }

  inverse() {
    const inverse = new Uint8Array(20);
    call('inverse', this.game, this.bytes, inverse);
    return new Passage(inverse, this.game);
  }

  // It is not named `then`, by which `await` would take the passage for a promise.
  followedBy(next) {
    if (next.game !== this.game) throw new FcanonError(2);
    const both = new Uint8Array(20);
    call('then', this.game, this.bytes, next.bytes, both);
    return new Passage(both, this.game);
  }

  image(board) {
    if (board.game !== this.game) throw new FcanonError(4);
    const image = new Uint8Array(72);
    call('image', this.game, this.bytes, board.bytes, image);
    return new Board(new Made(image), this.game);
  }

  carry(move) {
    const carried = moveOf(move);
    call('carry', this.game, this.bytes, carried);
    return nameOf(carried);
  }

  carryRun(run) {
    const carried = runOf(run);
    call('carry_run', this.game, this.bytes, carried);
    return nameOf(carried);
  }

  toJSON() {
    return { game: this.game, passage: this.passage };
  }

  static fromJSON({ game, passage }) {
    if (!/^[0-9a-f]{40}$/.test(passage)) throw new FcanonError(2);
    return new Passage(passage.match(/../g).map((byte) => parseInt(byte, 16)), game);
  }

  toString() {
    const letters = (names, bytes) => Array.from(bytes, (it) => names[it]).join('');
    const suits = letters(SUITS, this.#bytes.slice(0, 4));
    const columns = letters('12345678', this.#bytes.slice(4, 12));
    const cells = letters(CELLS, this.#bytes.slice(12, 12 + CELL_COUNTS[GAMES.indexOf(this.game)]));
    return `renaming ${suits} columns ${columns} cells ${cells}`;
  }
}

// The bytes of the board that a text spells.
function bytesOf(text, game) {
  const bytes = typeof text === 'string' ? new TextEncoder().encode(text) : Uint8Array.from(text);
  const board = new Uint8Array(72);
  call('read', game, bytes, BigInt(bytes.length), board, new Uint8Array(8));
  return board;
}

// Makes the bytes of several boards, 72 each, those of their canonical boards.
export function canonicalizeAll(boards, game = 'freecell') {
  if (boards.length % 72 !== 0) throw new FcanonError(4, Math.floor(boards.length / 72));
  const keys = Uint8Array.from(boards);
  call('keys', game, keys, BigInt(boards.length / 72), new Uint8Array(8));
  return keys;
}

// The bytes of a board that a call wrote; no other file can make one.
class Made {
  constructor(bytes) {
    this.bytes = bytes;
  }
}

export class Board {
  #bytes;

  constructor(text, game = 'freecell') {
    this.#bytes = text instanceof Made ? text.bytes : bytesOf(text, game);
    this.game = game;
    Object.freeze(Object.defineProperty(this, 'board', AS_TEXT));
  }

  static deal(number, game = 'freecell') {
    const board = new Uint8Array(72);
    const isNumber = Number.isInteger(number) && number >= 0 && number < 2 ** 32;
    call('deal', game, isNumber ? number : 0, board);
    return new Board(new Made(board), game);
  }

  static fromBytes(bytes, game = 'freecell') {
    if (bytes.length !== 72) throw new FcanonError(4);
    const board = Uint8Array.from(bytes);
    call('write', game, board, new Uint8Array(256));
    return new Board(new Made(board), game);
  }

  get bytes() {
    return this.#bytes.slice();
  }

  toJSON() {
    return { game: this.game, board: this.board };
  }

  static fromJSON({ game, board }) {
    return new Board(board, game);
  }

  get key() {
    return `${this.game} ${hexOf(this.#bytes)}`;
  }

  get isWon() {
    return this.#bytes.subarray(0, 4).every((height) => height === 13);
  }

  equals(other) {
    return this.game === other.game && this.#bytes.every((byte, at) => byte === other.#bytes[at]);
  }

  canonical() {
    const board = new Uint8Array(72);
    call('key', this.game, this.bytes, board);
    return new Board(new Made(board), this.game);
  }

  canonicalHash() {
    const hash = new Uint8Array(16);
    call('hash', this.game, this.bytes, hash);
    return hash;
  }

  canonicalize() {
    const [board, passage] = [new Uint8Array(72), new Uint8Array(20)];
    call('canon', this.game, this.bytes, board, passage);
    return { board: new Board(new Made(board), this.game), passage: new Passage(passage, this.game) };
  }

  child(move) {
    const [board, passage] = [new Uint8Array(72), new Uint8Array(20)];
    call('child', this.game, this.bytes, moveOf(move), board, passage);
    return { board: new Board(new Made(board), this.game), passage: new Passage(passage, this.game) };
  }

  moves() {
    const [moves, count] = [new Uint8Array(2 * MOST_CHILDREN), new Uint8Array(8)];
    call('moves', this.game, this.bytes, moves, BigInt(MOST_CHILDREN), count);
    const name = (_, at) => nameOf(moves.subarray(2 * at, 2 * at + 2));
    return Array.from({ length: numberIn(count) }, name);
  }

  runMoves() {
    const [runs, count] = [new Uint8Array(3 * MOST_RUN_MOVES), new Uint8Array(8)];
    call('run_moves', this.game, this.bytes, runs, BigInt(MOST_RUN_MOVES), count);
    const name = (_, at) => nameOf(runs.subarray(3 * at, 3 * at + 3));
    return Array.from({ length: numberIn(count) }, name);
  }

  children() {
    const [moves, keys] = [new Uint8Array(2 * MOST_CHILDREN), new Uint8Array(72 * MOST_CHILDREN)];
    const [room, count] = [BigInt(MOST_CHILDREN), new Uint8Array(8)];
    call('children', this.game, this.bytes, moves, room, keys, room, count);
    return Array.from({ length: numberIn(count) }, (_, at) => ({
      move: nameOf(moves.subarray(2 * at, 2 * at + 2)),
      board: new Board(new Made(keys.slice(72 * at, 72 * at + 72)), this.game),
    }));
  }

  symmetries() {
    const [suits, count] = [new Uint8Array(4 * MOST_SYMMETRIES), new Uint8Array(8)];
    call('symmetries', this.game, this.bytes, suits, count);
    const letters = Array.from(suits, (it) => SUITS[it]).join('');
    return letters.slice(0, 4 * numberIn(count)).match(/.{4}/g);
  }

  isUnsolvable(keys) {
    try {
      call('unsolvable', this.game, this.bytes, keys, BigInt(keys.length / 72));
    } catch (error) {
      if (error.answer === NOT_CLOSED || error.answer === NOT_AMONG) return false;
      throw error;
    }
    return true;
  }

  passageTo(other) {
    if (this.game !== other.game) return null;
    const passage = new Uint8Array(20);
    try {
      call('same', this.game, this.bytes, other.bytes, passage);
    } catch (error) {
      if (error.answer === 6) return null;
      throw error;
    }
    return new Passage(passage, this.game);
  }

  play(move) {
    const board = this.bytes;
    call('play', this.game, board, moveOf(move));
    return new Board(new Made(board), this.game);
  }

  playRun(run) {
    const board = this.bytes;
    call('play_run', this.game, board, runOf(run));
    return new Board(new Made(board), this.game);
  }

  expand(run) {
    const [moves, count] = [new Uint8Array(2 * MOST_MOVES), new Uint8Array(8)];
    call('expand', this.game, this.bytes, runOf(run), moves, BigInt(MOST_MOVES), count);
    const name = (_, at) => nameOf(moves.subarray(2 * at, 2 * at + 2));
    return Array.from({ length: numberIn(count) }, name);
  }

  capacity(column) {
    const cards = new Uint8Array(8);
    const isColumn = Number.isInteger(column) && column > 0 && column < 9;
    call('capacity', this.game, this.bytes, isColumn ? 48 + column : 0, cards);
    return numberIn(cards);
  }

  toString() {
    const text = new Uint8Array(256);
    call('write', this.game, this.bytes, text);
    return textOf(text);
  }
}

// What is wrong with keys of a list that is said to be closed, or null.
export function findFlaw(keys, game = 'freecell') {
  const [place, move] = [new Uint8Array(8), new Uint8Array(2)];
  try {
    call('closed', game, keys, BigInt(keys.length / 72), place, move);
  } catch (error) {
    if (error.answer === 1) throw error;
    const { answer, reason } = error;
    return { answer, reason, place: numberIn(place), move: answer === OPEN ? nameOf(move) : null };
  }
  return null;
}
