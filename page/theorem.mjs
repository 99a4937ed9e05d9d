// Many boards, one position, as a visitor sees it: the boards that were seen, gathered by their canonical boards, and a
// demonstration. It ends with the first act of the reader; where motion is not wanted it shows where it leads.

import { textOf } from '../bindings/javascript/calls.js';
import { exchangeBack, exchangeBy, showSeen, shuffleBy } from './actions.mjs';
import { collection } from './collection.mjs';
import { at, element, hide, isNew, prefersStill, put, say, shape } from './elements.mjs';
import { shuffleOf } from './keeping.mjs';
import { fcanon } from './library.mjs';
import { areEqual, columnsOf, keyAfter, rankOf, renamed, stayingPassage } from './passages.mjs';
import { exchangedOf, keyOf, shown } from './shown.mjs';
import { amend, apply, AT_FIRST, store } from './store.mjs';
import { views } from './table.mjs';
import { counted, exchangedWords } from './words.mjs';

const MILLISECONDS = { begin: 1_500, step: 1_900, flight: 5_200 };
const SHUFFLES = ['20311764035212300000', '01230723651423010000', '02134756312003210000']; // as links have them

let drawn = new Map(); // elements that are drawn, by what they show

// A small picture of a board: a bar for each card, longer for a greater rank, in the colour of the column's place on
// the canonical board; swapped cards are white.
function picture(className, { game, cards }, board, passage) {
  const columns = columnsOf(board);
  const swapped = cards.map((card) => renamed(card, passage));
  const placed = fcanon.canon(game, board).passage;
  const pitch = 37 / Math.max(7, ...columns.map(({ length }) => length));
  const bars = [...columns, []].map(() => ''); // of each column, and of swapped cards
  columns.forEach((all, column) => all.forEach((card, row) => {
    const size = [2.6 + 4 * rankOf(card) / 12, .8 * pitch];
    const [x, y, across, down] = [8 * column + .7, pitch * row + 1.5, ...size].map((it) => it.toFixed(2));
    bars[swapped.includes(card) ? 8 : column] += `M${x} ${y}h${across}v${down}h-${across}z`;
  }));
  const placeOf = (column) => (column < 8 ? keyAfter(placed, String(column + 1)) : '');
  const paths = bars.map((d, column) => shape('path', { d, 'data-place': placeOf(column) }));
  return shape('svg', { viewBox: '0 0 64 40', class: `picture ${className}`, 'aria-hidden': true }, ...paths);
}

// Each board that was seen with its canonical board, in the order in which they were seen first, none twice.
function boardsSeen() {
  const found = new Map();
  const key = keyOf(shown.base);
  for (const one of store.state.seen.filter(({ of = key }) => of === key)) {
    const { game, board: start, canonical, passage: sorting } = exchangedOf(shown.base, one.exchange);
    const passage = one.shuffle && fcanon.isPassage(game, one.shuffle) ? one.shuffle : stayingPassage(game);
    const board = fcanon.image(game, start, passage);
    const [face, group] = [board, canonical].map(textOf);
    const cards = one.exchange?.cards ?? [];
    if (!found.has(face)) found.set(face, { one, game, board, canonical, sorting, cards, passage, face, group });
  }
  return [...found.values()];
}

function frameWords(boards, isFirst) {
  const swapped = boards.find(({ cards }) => cards.length > 0);
  if (!isFirst && swapped) return `${exchangedWords(swapped.cards, swapped.passage)} swapped: another puzzle`;
  return `${counted(boards.length, 'board')}, one canonical board`;
}

function boardButton(board) {
  const properties = { type: 'button', className: 'seen', title: 'Show this board' };
  return element('button', properties, picture('left', board, board.board, board.passage));
}

function canonicalPicture(board) {
  const arrow = element('span', { className: 'to', role: 'img', ariaLabel: 'become' }, '→');
  return element('span', { className: 'canonical' }, arrow, picture('right', board, board.canonical, board.sorting));
}

// Draws a frame for each canonical board. What is there already stays, and keeps the focus.
export function drawGathered() {
  const { seen, shuffle, exchange } = store.state;
  if (!isNew('gathered', seen, shuffle, exchange, shown.base)) return;
  const before = drawn;
  drawn = new Map();
  const kept = (key, make) => drawn.set(key, before.get(key) ?? make()).get(key);
  const all = boardsSeen();
  const now = textOf(fcanon.image(shown.record.game, shown.record.board, shown.shuffle));
  const button = (board) => Object.assign(kept(`${board.cards} ${board.face}`, () => boardButton(board)),
    { ariaLabel: `Board ${all.indexOf(board) + 1}`, ariaPressed: board.face === now, onclick: () => showSeen(board.one) });
  put(at('gathered'), [...new Set(all.map(({ group }) => group))].map((group, place) => {
    const boards = all.filter((it) => it.group === group);
    const frame = kept(group, () => element('li', {}, element('div', { className: 'boards' }),
      element('p', { className: 'soft' })));
    const [row, words] = frame.children;
    const right = kept(`to ${boards[0].cards} ${group}`, () => canonicalPicture(boards[0]));
    put(row, [...boards.map(button), right]);
    words.textContent = frameWords(boards, place === 0);
    frame.className = areEqual(boards[0].canonical, shown.record.canonical) ? 'now' : '';
    return frame;
  }));
}

let left = null; // what is still to be shown, or null
let timer = null;

function showNext() {
  const act = left.shift();
  if (!act) return stopShowing();
  const { change, flies = false, ...how } = act();
  amend(change, how);
  if (flies) views.right.carryFrom(views.left);
  timer = setTimeout(showNext, flies ? MILLISECONDS.flight : MILLISECONDS.step);
}

const flight = (says) => () => ({ says, flies: true });
const nextRecord = () =>
  ({ says: 'Now a whole deal.', change: { ...AT_FIRST, number: 2, name: collection.names[1] } });

// Swaps the last cards of two columns, where two have some.
function swapLast() {
  const columns = columnsOf(shown.sides.own).filter(({ length }) => length > 0);
  const [one, other] = columns.map(({ byteOffset, length }) => byteOffset + length - 1);
  return other === undefined ? {} : exchangeBy(one, other);
}

// Green becomes blue, also after a shuffle; then, for a visitor on the next board, shuffles, a swap, and the swap back.
export function demonstrate(isVisit = true) {
  const shuffles = SHUFFLES.map((text) => () => shuffleBy(shuffleOf(text)));
  left = [
    flight('Green becomes blue: columns move, then suits are renamed.'), shuffles[0],
    flight('Another green board becomes the same blue one.'), ...isVisit ? [nextRecord, shuffles[0]] : [],
    ...shuffles.slice(1), swapLast, () => (store.state.exchange ? exchangeBack() : {}),
  ];
  if (prefersStill.matches) return skip();
  at('skip').hidden = false;
  hide('carry-over', true);
  timer = setTimeout(showNext, MILLISECONDS.begin);
}

export function replay() {
  apply({ what: 'the demonstration', change: AT_FIRST });
  demonstrate(false);
}

export function skip() {
  const rest = left ?? [];
  stopShowing();
  for (const act of rest) amend(act().change ?? {});
  say('Your turn: shuffle the left board.');
}

function stopShowing() {
  clearTimeout(timer);
  left = null;
  at('carry-over').hidden = false;
  hide('skip', true);
  views.right.land();
}

store.acted = stopShowing;
