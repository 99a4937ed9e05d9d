// Moves by hand on either board: by pointer, in a board by keys, and typed as they are written.

import { SUITS, wordsOf } from '../bindings/javascript/calls.js';
import { makeMove, shuffle } from './actions.mjs';
import { at, hide, listen, say, setIdle, write } from './elements.mjs';
import { fcanon, listOf, moveOf } from './library.mjs';
import { areEqual, cardsByPile, isColumn, keyAfter, pileKeys, renamed, suitOf } from './passages.mjs';
import { shown } from './shown.mjs';
import { redo, store, undo } from './store.mjs';
import { gripsOf, views } from './table.mjs';
import { cardSign, moveWords, pileName, refusalWords } from './words.mjs';

const DRAG_PIXELS = 6; // a shorter way is a press

// Cards of a pile of the record's own board, by that board's keys: how many a move can take, and where these may go.
let held = null;

function tryMove(from, to, count, sign = '>>') {
  const move = moveOf(from, to, count);
  return { ...fcanon.play(shown.record.game, shown.sides.own, { ...listOf(move), sign }), move };
}

// The move of so many cards, or of as many as the ranks say where count is 0; in its short form where that is the same.
function moveOfCards(from, to, count) {
  const isBetween = isColumn(from) && isColumn(to);
  const tried = tryMove(from, to, isBetween || count > 1 ? count : 0);
  const short = count > 0 && isBetween && tried.answer === 0 ? tryMove(from, to, 0) : null;
  return short?.answer === 0 && areEqual(short.board, tried.board) ? short : tried;
}

const cardsOwn = (key) => cardsByPile(shown.record.game, shown.sides.own).get(key);

// A pile of one board was pressed, a card of it where a row is given.
function press(name, key, row = undefined) {
  store.touched();
  const own = keyAfter(shown.sides[name].inverse, key);
  say('');
  if (!held) return take(name, own, row);
  if (held.key !== own) return drop(name, own);
  if (held.row === row && tryMove(own, 'h', 0).answer === 0 && held.cards.length === 1) return drop(name, held.home);
  const isOther = held.row !== row;
  release();
  if (isOther) take(name, own, row);
}

function take(name, key, row) {
  const { length } = cardsOwn(key);
  if (key[0] === 'h') return say('Cards that are home stay there.');
  if (length === 0) return say('There is no card to move.');
  hold(name, key, row === undefined ? 0 : length - row, row);
}

// Holds so many cards of a pile: the last one where count is 0, and as many as the ranks say go with it. The library
// says where they may go; of homes only that of their suit is tried.
function hold(name, key, count, row = undefined) {
  const { record: { game }, sides: { own, [name]: { passage } } } = shown;
  const cards = cardsOwn(key).slice(-Math.max(1, count));
  const home = `h${SUITS[suitOf(cards.at(-1))]}`;
  const isTried = (it) => it !== key && (it[0] !== 'h' || it === home);
  const targets = pileKeys(game).filter((it) => isTried(it) && moveOfCards(key, it[0], count).answer === 0);
  const most = gripsOf(game, own).get(key) ?? 1;
  held = { name, key, row, count, cards, home, targets, most };
  const signs = cards.map((card) => cardSign(renamed(card, passage))).join(' ');
  const others = count === 0 && most > 1 ? ' with what the ranks say' : '';
  const names = targets.map((it) => pileName(keyAfter(passage, it))).sort();
  say(`${signs}${others} may go to ${names.join(', ') || 'no pile'}.`);
  drawHeld();
}

// Holds one card more, or one less; where as many are held as the ranks say, one less is the last card alone.
export function holdMore(change) {
  if (!held) return;
  const count = Math.max(1, (held.count || 1) + change);
  if (count <= held.most) hold(held.name, held.key, count);
}

export function release() {
  if (!held) return;
  held = null;
  drawHeld();
}

function drawHeld() {
  const { cards, key, targets, most, count } = held ?? { cards: [], key: null, targets: [], most: 1, count: 1 };
  for (const view of Object.values(views)) {
    view.mark('held', cards, key ? [key] : []);
    view.mark('target', [], targets);
    for (const pile of view.piles.values()) {
      const isHeld = pile.classList.contains('held');
      const state = isHeld ? ' It is held.' : pile.classList.contains('target') ? ' The held card may go here.' : '';
      if (pile.ariaLabel !== pile.words + state) pile.ariaLabel = pile.words + state;
      pile.ariaPressed = isHeld;
    }
  }
  hide('holding', most === 1);
  setIdle('more-cards', Math.max(1, count) >= most);
  setIdle('fewer-cards', count === 1 || most === 1);
}

function drop(name, key) {
  const { record: { game }, sides: { own: board, [name]: { passage } } } = shown;
  const tried = moveOfCards(held.key, key[0], held.count);
  if (tried.answer === 0) return makeMove(tried.move);
  const { answer } = held.cards.length === 1 ? tryMove(held.key, key[0], 0, '>') : tried;
  say(refusalWords({ game, board, passage, cards: held.cards, key, reason: wordsOf(answer) }), true);
  release();
}

// Says all moves that the game allows on the left board; cells that are empty are alike, and so are such columns.
export function sayMoves() {
  const { record: { game }, sides: { left: { board } } } = shown;
  const words = (move) => moveWords(game, board, { sign: move[2] ? '>>' : '>', moves: [move] })
    .replace(/ to cell .$/, ' to a cell').replace(/ to column .$/, ' to an empty column');
  const all = [...new Set(fcanon.moves(game, board).map(words))];
  write('legal', all.length === 0 ? 'No move is left.' : `Moves on the left board: ${all.join(', ')}.`);
}

const pressable = (target) => target?.closest?.('.card, .pile') ?? null;
const sideOf = (it) => it?.closest('.board')?.id;

function pressAt(target) {
  const it = pressable(target);
  if (it) press(sideOf(it), it.dataset.key, it.dataset.row);
  return it !== null;
}

// Cards follow the pointer from the first few steps of it on; a shorter touch is a press.
function listenToPointer({ holder }) {
  let grip = null;
  const drag = (isDrag, x, y) => {
    document.body.classList.toggle('dragging', isDrag);
    at('shown').style.setProperty('--drag', `${x}px, ${y}px`);
  };
  const begin = (event) => {
    if (held) release();
    pressAt(grip.card);
    grip.isDrag = held !== null;
    if (!held) grip = null;
    else if (event.isTrusted) holder.setPointerCapture(event.pointerId);
  };
  const end = (act) => {
    grip = null;
    drag(false, 0, 0);
    act();
  };
  listen(holder, {
    pointerdown: ({ target, button, isPrimary, clientX, clientY }) => {
      const card = target.closest('.card');
      if (card && button === 0 && isPrimary) grip = { card, x: clientX, y: clientY, isDrag: false };
    },
    pointermove: (event) => {
      if (!grip) return;
      const [x, y] = [event.clientX - grip.x, event.clientY - grip.y];
      if (!grip.isDrag && Math.hypot(x, y) > DRAG_PIXELS) begin(event);
      if (grip?.isDrag) drag(true, x, y);
    },
    pointerup: (event) => {
      if (event.button !== 0 || !event.isPrimary) return;
      end(grip?.isDrag ? () => dropAt(event) : () => pressAt(event.target) || release());
    },
    pointercancel: () => end(release),
  });
}

function dropAt({ clientX, clientY }) {
  const isTarget = (it) => pressable(it) && !it.closest('.held');
  const target = document.elementsFromPoint(clientX, clientY).find(isTarget);
  const pile = pressable(target);
  const side = sideOf(pile);
  if (!side || keyAfter(shown.sides[side].inverse, pile.dataset.key) === held?.key) release();
  else pressAt(target);
}

function light(name, target) {
  const it = pressable(target);
  const cards = it?.dataset.own ? [Number(it.dataset.own)] : [];
  const keys = it ? [keyAfter(shown.sides[name].inverse, it.dataset.key)] : [];
  for (const view of Object.values(views)) view.mark('lit', cards, keys);
}

// The keys in a board: arrows lead from pile to pile, or with Shift take one card more or less; Enter and the blank turn.
function walk(name, event) {
  const pile = event.target.closest('.pile');
  if (!pile || event.ctrlKey || event.metaKey || event.altKey) return;
  const piles = [...views[name].piles.values()];
  const place = piles.indexOf(pile);
  const distance = (it) => Math.abs(it.x - pile.x);
  const inBand = (y) => piles.filter((it) => it.y === y).sort((one, other) => distance(one) - distance(other))[0];
  const next = {
    ArrowLeft: piles[place - 1], ArrowRight: piles[place + 1], ArrowUp: inBand(pile.y - 1),
    ArrowDown: inBand(pile.y + 1), Home: piles[0], End: piles.at(-1),
  }[event.key];
  const isTurn = event.key === 'Enter' || event.key === ' ';
  const change = event.shiftKey && { ArrowUp: 1, ArrowDown: -1 }[event.key];
  if (!isTurn && !change && !next) return;
  event.preventDefault();
  if (isTurn) return press(name, pile.dataset.key);
  if (change) return holdMore(change);
  for (const it of piles) it.tabIndex = it === next ? 0 : -1;
  next.focus();
}

// The keys that write a move of the left board, and other letters; they can be turned off.
function typeLetter(key) {
  if (key === 's') return shuffle();
  if (key === '?') return sayMoves();
  if (key === 'h' && held) return drop('left', held.home);
  if (pileKeys(shown.record.game).includes(key)) press('left', key);
  else if (key === 'h') say('First say which card goes home: its column or its cell.');
}

// Undo and redo are everywhere the same, but in fields of one line.
function undoByKeys(event, key) {
  const act = { z: event.shiftKey ? redo : undo, y: redo }[key];
  if (!act || event.target.matches('input:not([type=checkbox], [type=range])')) return;
  event.preventDefault();
  act();
}

function typed(event) {
  if (event.altKey || event.defaultPrevented) return;
  const key = event.key.toLowerCase();
  if (event.ctrlKey || event.metaKey) return undoByKeys(event, key);
  if (!shown || event.target.closest('input:not([type=checkbox]), textarea, select')) return;
  if (key === 'escape') release();
  else if (at('keys').checked) typeLetter(key);
}

for (const [name, view] of Object.entries(views)) {
  const [lit, unlit] = [({ target }) => light(name, target), () => light(name, null)];
  listenToPointer(view);
  listen(view.holder, { mouseover: lit, focusin: lit, mouseleave: unlit, focusout: unlit });
  listen(view.holder, { keydown: (event) => walk(name, event) });
}
listen(document, { keydown: typed });
