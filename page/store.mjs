// The one store: the state of the page, the one way to change it, and the history of all that changes.
//
// A state is the bytes of the text and the game of a record without a header; the record that is shown, by its number
// and its name (null for any), the list and how many of its moves are made; the passage of the shuffle, or null, and
// how many times it was shuffled; two exchanged cards, or null; whether the right board is made canonical anew; a list
// carried here from another record, or null; the boards that were seen, each a shuffle and an exchange; and the bytes
// that were imported, with what is said of them, or null. Nothing in a state changes.

import { spliced, spliceOf, turned } from './lines.mjs';

export const AT_FIRST = {
  list: 0, step: 0, shuffle: null, times: 0, exchange: null, isSorted: false, carried: null,
  seen: [{ shuffle: null, exchange: null }],
};
export const EMPTY = {
  bytes: new Uint8Array(), game: 0, number: 1, name: null, imported: null, ...AT_FIRST,
};

// How it is drawn, and who is called, is put here by others. The history is a list of entries, of which the first ones,
// so many, are done; undo and redo go through it, and nothing leaves it. One that was not kept is missing at its place.
/** @type {{ [name: string]: any }} */
export const store = {
  state: EMPTY, entries: [], done: 0, read: null, draw: (_) => {}, acted: () => {}, touched: () => {},
};

function become(state, action) {
  store.state = state;
  store.draw(action);
}

// Does an action: `what` it is, for undo; the `change` of the state; with which others it `joins`, and how it is drawn.
export function apply(action) {
  store.acted();
  const after = { ...store.state, ...action.change };
  takeDown(action, store.state, after);
  become(after, { isKept: true, ...action });
}

// A change that nobody asked for, and that undo passes by.
export const amend = (change, action = {}) => become({ ...store.state, ...change }, action);

export function begin({ state, entries = [], done = 0 }) {
  Object.assign(store, { entries, done });
  become({ ...EMPTY, ...state }, {});
}

// ---- the history: an entry keeps what two states differ in, of the text a splice

const entryOf = (what, joins, before, after) => ({
  what, joins, before: { ...before, bytes: null }, after: { ...after, bytes: null },
  splice: spliceOf(before.bytes, after.bytes),
});
const forward = ({ splice, after }, { bytes }) => ({ ...after, bytes: spliced(bytes, splice) });
const backward = ({ splice, before }, { bytes }) => ({ ...before, bytes: spliced(bytes, turned(splice)) });

// Whether a change of the text goes on where the last one ended: some more of a line is written or taken away.
function goesOn(last, next) {
  if (last === null || next === null) return last === next;
  const isWritten = next.taken.length === 0 && next.from === last.from + last.put.length && !next.put.includes(10);
  const isTaken = next.put.length === 0 && next.from + next.taken.length === last.from && last.put.length === 0;
  return isWritten || isTaken;
}

// Takes down what led from one state to the next one. What joins the last entry becomes one with it. What was undone, and
// is then left for something else, is not lost: undo leads back through it.
function takeDown({ what, joins = null }, before, after) {
  const { entries, done } = store;
  const end = entries.slice(done).reduce((at, entry) => forward(entry, at), before);
  if (end !== before) entries.push(entryOf('the way back', null, end, before));
  const [last, next] = [entries.at(-1), entryOf(what, joins, before, after)];
  const isJoined = joins !== null && last?.joins === joins && goesOn(last.splice, next.splice);
  if (isJoined) entries.pop();
  entries.push(isJoined ? entryOf(last.what, joins, backward(last, before), after) : next);
  store.done = entries.length;
}

function go(entry, lead, done, says) {
  store.acted();
  if (!entry) return;
  store.done = done;
  become(lead(entry, store.state), { says: `${says}: ${entry.what}.`, isKept: true });
}

export const lastDone = () => store.entries[store.done - 1];
export const firstUndone = () => store.entries[store.done];
export const undo = () => go(lastDone(), backward, store.done - 1, 'Undone');
export const redo = () => go(firstUndone(), forward, store.done + 1, 'Done again');
