// The bytes of boards and passages, which fcanon.h describes, and their piles under passages.

import { CELL_COUNTS, CELLS, RANKS, SUITS } from '../bindings/javascript/calls.js';
import { fcanon } from './library.mjs';

export const HOMES = 'HCDS';
export const PLACE = { cells: 4, lengths: 12, cards: 20 };
export const suitOf = (card) => (card - 1) & 3;
export const rankOf = (card) => (card - 1) >> 2;
export const renamed = (card, passage) => (card === 0 ? 0 : card - suitOf(card) + passage[suitOf(card)]);
export const areEqual = (bytes, others) => bytes.every((byte, place) => byte === others[place]);
export const upTo = (count) => Array.from({ length: count }, (_, place) => place);

export function columnsOf(board) {
  let start = PLACE.cards;
  return upTo(8).map((column) => board.subarray(start, start += board[PLACE.lengths + column]));
}

export function passageOf(...orders) {
  const passage = new Uint8Array(20);
  orders.forEach((order, part) => passage.set(order, [0, 4, 12][part]));
  return passage;
}

export const stayingPassage = (game) => passageOf(upTo(4), upTo(8), upTo(CELL_COUNTS[game]));

export function inAnyOrder(values) {
  const keyed = values.map((value) => ({ value, key: Math.random() }));
  return keyed.sort((one, other) => one.key - other.key).map(({ value }) => value);
}

// A passage by chance. Whether a renaming keeps the rule of building the library says.
export function anyPassage(game) {
  const passage = passageOf(...[4, 8, CELL_COUNTS[game]].map((count) => inAnyOrder(upTo(count))));
  return fcanon.isPassage(game, passage) ? passage : anyPassage(game);
}

// ---- piles: a column is known by its digit, a cell by its letter, a home by `h` and its suit

const homeKeys = [...HOMES].map((suit) => `h${suit}`);
export const pileKeys = (game) => [...CELLS.slice(0, CELL_COUNTS[game]), ...homeKeys, ...'12345678'];

// Where a passage puts a pile.
export function keyAfter(passage, key) {
  if (key[0] === 'h') return `h${SUITS[passage[SUITS.indexOf(key[1])]]}`;
  if (key < '9') return String(passage.subarray(4, 12).indexOf(Number(key) - 1) + 1);
  return CELLS[passage.subarray(12).indexOf(CELLS.indexOf(key))];
}

export function cardsByPile(game, board) {
  const cells = upTo(CELL_COUNTS[game]).map((cell) => [board[PLACE.cells + cell]].filter((card) => card > 0));
  const homes = [...HOMES].map((name) => SUITS.indexOf(name))
    .map((suit) => upTo(board[suit]).map((rank) => 4 * rank + suit + 1));
  const piles = [...cells, ...homes, ...columnsOf(board).map((column) => [...column])];
  return new Map(pileKeys(game).map((key, place) => [key, piles[place]]));
}

// The cards that lie on other piles than before.
export function movedCards(game, before, after) {
  const piles = cardsByPile(game, before);
  return [...cardsByPile(game, after)].flatMap(([key, cards]) => cards.filter((card) => !piles.get(key).includes(card)));
}

export const cardText = (card) => RANKS[rankOf(card)] + SUITS[suitOf(card)];
export const isColumn = (key) => key >= '1' && key <= '8';
