// What is kept of a state beside the page: by this browser all of it, with its history, until it is forgotten; and in a
// link what is seen, all after the `#`. Nothing is sent anywhere.

import { GAMES } from '../bindings/javascript/calls.js';
import { at, fill, write } from './elements.mjs';
import { fcanon, headerLine, listLine } from './library.mjs';
import { bytesOf, restOfLine } from './lines.mjs';
import { areEqual } from './passages.mjs';
import { EMPTY, store } from './store.mjs';

const [WORKS, ENTRIES] = ['works', 'entries'];
const MY_KEY = 'fcanon-work';
const MOST_EARLIER = 5;
const LABEL = 40; // characters of a work's first line
const MOST_ENTRIES = 300; // of a history
const LONG = { bytes: 300_000, milliseconds: 1_500 }; // a text that is not kept after each act, but soon
export const LONGEST = 8_000; // what some programs cut off is longer

// ---- by this browser: six works at most, each a state, and beside it the entries of its history, by their places. A tab
// has a work of its own, which no other tab writes, and begins another one where a link takes its place.

let base = null; // the database, where the browser has one
let mine = ''; // the key of this tab's work
let forgotten = 0; // so many entries are not kept
let keptEntries = new WeakSet();
let waiting = null;

const freshKey = () => `${Date.now()} ${Math.random()}`;
const answered = (request) => new Promise((take, refuse) => {
  request.onsuccess = () => take(request.result);
  request.onerror = () => refuse(request.error);
});

const inBase = (name, mode = 'readonly') => base.transaction(name, mode).objectStore(name);
const entriesOf = (key, from = 0, end = Infinity) => IDBKeyRange.bound([key, from], [key, end], false, true);
const allWorks = async () => (await answered(inBase(WORKS).getAll())).sort((one, other) => other.time - one.time);

// The history of a work, as far as it is kept. What comes after a gap leads nowhere.
async function historyOf({ key, done }) {
  const entries = [];
  for (const entry of await answered(inBase(ENTRIES).getAll(entriesOf(key)))) entries[entry.place] = entry;
  if (!(done in entries)) entries.length = done;
  if (key === mine) entries.forEach((entry) => keptEntries.add(entry));
  return entries;
}

// The work to begin with: of this tab, which was loaded again, or else the last one; or null. A key that is there while
// the page is seen would come to a copy of the tab.
export async function kept() {
  mine = freshKey();
  try {
    const before = sessionStorage.getItem(MY_KEY);
    sessionStorage.removeItem(MY_KEY);
    const opening = indexedDB.open('fcanon', 1);
    opening.onupgradeneeded = () => {
      opening.result.createObjectStore(WORKS, { keyPath: 'key' });
      opening.result.createObjectStore(ENTRIES, { keyPath: ['key', 'place'] });
    };
    base = await answered(opening);
    const all = await allWorks();
    mine = all.find(({ key }) => key === before)?.key ?? mine;
    drawEarlier(all);
    if (all.length > 0) sayKept(true);
    const work = all.find(({ key }) => key === mine) ?? all[0];
    return work ? { ...work, entries: await historyOf(work) } : null;
  } catch {
    return null;
  }
}

const askToStay = (isAsked) => { window.onbeforeunload = isAsked ? (event) => event.preventDefault() : null; };

function sayKept(isSo) {
  if (!isSo) keptEntries = new WeakSet();
  askToStay(!isSo);
  write('kept', isSo ? 'This browser keeps your work.' : 'This browser does not keep your work: save it.', !isSo);
}

// Keeps the state, and of the history what is not kept yet.
function keepNow() {
  clearTimeout(waiting);
  if (waiting === null) return;
  waiting = null;
  const { state, entries, done } = store;
  const first = Math.max(forgotten, entries.length - MOST_ENTRIES);
  try {
    const all = base.transaction([WORKS, ENTRIES], 'readwrite');
    const history = all.objectStore(ENTRIES);
    all.objectStore(WORKS).put({ key: mine, time: Date.now(), state, done });
    for (let place = entries.length - 1; place >= first && place in entries && !keptEntries.has(entries[place]); place--) {
      history.put({ ...entries[place], key: mine, place });
      keptEntries.add(entries[place]);
    }
    history.delete(entriesOf(mine, entries.length));
    if (first > 0) history.delete(entriesOf(mine, 0, first));
    all.oncomplete = () => { if (waiting === null) sayKept(true); };
    all.onabort = () => sayKept(false);
    all.commit();
  } catch {
    sayKept(false);
  }
}

export function keepSoon() {
  clearTimeout(waiting);
  const isLong = store.state.bytes.length > LONG.bytes;
  if (isLong) askToStay(true);
  waiting = setTimeout(keepNow, isLong ? LONG.milliseconds : 0);
}

export async function layAside() {
  keepNow();
  mine = freshKey();
  keptEntries = new WeakSet();
  if (base) drawEarlier(await allWorks());
}

// Lists the works before this one, and drops the oldest where there are too many.
function drawEarlier(all) {
  const earlier = all.filter(({ key }) => key !== mine);
  for (const { key } of earlier.splice(MOST_EARLIER)) {
    inBase(WORKS, 'readwrite').delete(key);
    inBase(ENTRIES, 'readwrite').delete(entriesOf(key));
  }
  at('earlier-row').hidden = earlier.length === 0;
  const words = earlier.map(({ time, state: { bytes } }) =>
    `${new Date(time).toLocaleString()}: ${restOfLine(bytes, 0).slice(0, LABEL)}`);
  fill('earlier', 'option', words, earlier.map(({ key }) => key));
}

export const earlierState = async () => (await answered(inBase(WORKS).get(at('earlier').value))).state;

// Forgets all works, and what led to the present one.
export async function forget() {
  clearTimeout(waiting);
  waiting = null;
  askToStay(false);
  mine = freshKey();
  forgotten = store.entries.length;
  if (base) await Promise.all([WORKS, ENTRIES].map((name) => answered(inBase(name, 'readwrite').clear())));
  drawEarlier([]);
  write('kept', 'Nothing is kept.');
}

addEventListener('pagehide', () => {
  keepNow();
  try { sessionStorage.setItem(MY_KEY, mine); } catch { /* the last work is taken */ }
});

// ---- in a link

// The bytes that the digits of a link spell; whether they are a passage of the game is asked where they are used.
export const shuffleOf = (digits) => Uint8Array.from({ length: 20 }, (_, place) => Number(digits[place] ?? 0));

// The number of a deal whose name and board a record has, or null.
function numberOf({ game, name, board }) {
  const number = /^deal-(\d{1,10})$/.exec(name)?.[1];
  const dealt = fcanon.deal(game, Number(number));
  return dealt && areEqual(dealt, board) ? number : null;
}

export function linkOf({ record, lists, chosen, step, shuffle, times, isSorted }) {
  const list = lists.length > 0 ? listLine(lists[chosen]) : '';
  const deal = numberOf(record);
  const text = () => headerLine(record) + fcanon.write(record.game, record.board) + list;
  const held = {
    deal, list: deal && list.trim(), text: !deal && text(), game: record.game, step,
    shuffle: times > 0 && shuffle.join(''), sorted: isSorted && 1,
  };
  return `#${new URLSearchParams(Object.entries(held).filter(([, value]) => value))}`;
}

// The state that a link asks for, or null where it holds no text.
export function linked(hash) {
  const given = new URLSearchParams(hash.slice(1));
  const game = Math.max(0, Object.keys(GAMES).indexOf(given.get('game')));
  const deal = Number(given.get('deal'));
  const board = fcanon.deal(game, deal);
  const dealt = board && `@ ${GAMES[game]} deal-${deal}\n${fcanon.write(game, board)}${given.get('list') ?? ''}\n`;
  const text = dealt || given.get('text');
  if (!text) return null;
  const shuffle = given.has('shuffle') ? shuffleOf(given.get('shuffle')) : null;
  return {
    ...EMPTY, bytes: bytesOf(text), game,
    step: Math.max(0, Math.trunc(Number(given.get('step'))) || 0), isSorted: given.has('sorted'),
    shuffle, times: shuffle ? 1 : 0, seen: [{ shuffle, exchange: null }],
  };
}
