// What is shown of a state: the record, its lists and their boards, and the two boards beside each other.

import { collection, recordAt } from './collection.mjs';
import { fcanon, listOf, stepsOf } from './library.mjs';
import { areEqual, PLACE, stayingPassage } from './passages.mjs';
import { AT_FIRST } from './store.mjs';

const MOST_ROWS = { least: 6, most: 9 }; // below the first card of a column; longer columns are squeezed

export let shown = null;
export const keyOf = ({ game, board }) => `${game} ${board}`;
const made = new WeakMap(); // of an exchange its record, of a list its boards

function once(thing, make) {
  if (!made.has(thing)) made.set(thing, make());
  return made.get(thing);
}

// The record of that number and name, or else of that name, or else the first one. Where the name is null any will do.
function pick({ number, name }) {
  const { groups } = collection;
  const isIt = (group, place) => group >= 0 && collection.names[place] === name;
  const isGood = (group) => group >= 0;
  const isThere = groups[number - 1] >= 0 && (name === null || isIt(0, number - 1));
  const place = [isThere ? number - 1 : groups.findIndex(isIt), groups.findIndex(isGood)].find((it) => it >= 0);
  return place === undefined ? null : recordAt(place);
}

// Whether a record that was read again has the board and the moves that lead to what is shown.
function leadsHere(record) {
  const { base, lists, chosen, step } = shown;
  const [before, after] = [lists, record.lists].map((all) => all[chosen]?.moves.slice(0, step) ?? []);
  return areEqual(base.board, record.board) && areEqual(before, after);
}

// A state that says what is there to show: another text may have lost the record, or its lists.
export function settled(state) {
  const record = pick(state);
  if (!record) return state;
  const { number, name } = record;
  if (state.name !== null && name !== state.name) return { ...state, ...AT_FIRST, number, name };
  const isShuffle = state.shuffle !== null && fcanon.isPassage(record.game, state.shuffle);
  const most = record.lists.length + (state.carried?.moves ? 1 : 0) - 1;
  const isHere = shown?.base.number === number && state.list === shown.chosen && state.step === shown.step;
  const isLost = isHere && record !== shown.base && !state.carried && !state.exchange && !leadsHere(record);
  const { list, step } = isLost || state.list > Math.max(0, most) ? AT_FIRST : state;
  return { ...state, number, name, list, step, ...isShuffle ? {} : { shuffle: null, times: 0 } };
}

// The record with two cards exchanged on one of its boards, which is a record of its own.
export function exchangedOf(record, exchange) {
  if (!exchange) return record;
  const { board } = exchange;
  const name = `${record.name.slice(0, 50)}-swapped`;
  return once(exchange, () => ({ ...record, name, lists: [], board, ...fcanon.canon(record.game, board) }));
}

// Works out what a settled state shows. The boards do not shrink while one record is shown.
export function derive(state) {
  const base = pick(state);
  if (!base) return shown = null;
  const { times, exchange, isSorted, list: chosen } = state;
  const record = exchangedOf(base, exchange);
  const { game } = record;
  const lists = [...record.lists, ...state.carried?.moves && !exchange ? [state.carried] : []];
  const steps = once(lists[chosen] ?? record, () => stepsOf(record, lists[chosen] ?? { ...listOf(), image: listOf() }));
  const step = Math.max(0, Math.min(state.step, steps.boards.length - 1));
  const shuffle = state.shuffle ?? stayingPassage(game);
  const own = steps.boards[step];
  const sideOf = (board, passage) => ({ board, passage, inverse: fcanon.inverse(game, passage) });
  const left = sideOf(fcanon.image(game, own, shuffle), shuffle);
  const sorted = fcanon.canon(game, own);
  const right = isSorted ? sideOf(sorted.canonical, sorted.passage) : sideOf(steps.images[step], record.passage);
  const isCanonical = areEqual(fcanon.canon(game, left.board).canonical, right.board);
  const isSame = fcanon.areSame(game, left.board, right.board);
  const rows = Math.max(...own.subarray(PLACE.lengths, PLACE.cards)) - 1;
  const before = shown?.base.name === base.name ? shown.most : MOST_ROWS.least;
  const most = Math.min(MOST_ROWS.most, Math.max(before, rows));
  const is = { isSorted, isCanonical, isSame };
  shown = { base, record, lists, chosen, steps, step, times, exchange, shuffle, sides: { own, left, right }, most, ...is };
}
