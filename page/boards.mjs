// A drawn board: 52 cards that stay, and go where the board has them.

import { CELL_COUNTS, CELLS, SUITS } from '../bindings/javascript/calls.js';
import { drawing, element, prefersStill, suitDrawing, at } from './elements.mjs';
import { cardsByPile, cardText, HOMES, isColumn, keyAfter, pileKeys, renamed, suitOf, upTo } from './passages.mjs';
import { pileName } from './words.mjs';

const TURN_MILLISECONDS = 150;
const SIDEWAYS = 'perspective(30rem) rotateY(90deg)';
const FLIGHT = { column: 330, card: 15, glide: 800, suits: 3_400, cells: 3_900 }; // milliseconds: what begins when
const suitShapes = new Map([...SUITS].map((suit) => [suit, at(suit).firstChild.getAttribute('d')]));

// A card of this number's rank; its suit is that of the board.
function cardElement(number) {
  const [rank] = cardText(number);
  const index = element('span', { className: 'index' }, rank.replace('T', '10'), suitDrawing('pip'));
  const mark = 'JQK'.includes(rank) ? drawing(rank, 'mark') : suitDrawing('mark');
  const stripe = element('i', { className: 'stripe' });
  return element('div', { className: 'card' }, element('div', { className: 'face' }, stripe, index, mark));
}

// A pile, where cells and homes fill so many bands above the columns.
function pileElement(key, bands) {
  const isHome = key[0] === 'h';
  const x = isHome ? 4 + HOMES.indexOf(key[1]) : isColumn(key) ? Number(key) - 1 : CELLS.indexOf(key);
  const y = isHome ? bands - 1 : isColumn(key) ? bands : 0;
  const sign = element('span', { className: 'place' }, isHome ? drawing(key[1], 'pip') : key, element('span'));
  const className = isColumn(key) ? 'pile column' : 'pile';
  const pile = element('div', { className, tabIndex: -1, role: 'button', x, y }, sign);
  Object.assign(pile.dataset, { key, name: pileName(key) });
  placeAt(pile, x, y, 0);
  return pile;
}

function showSuit(card, suit) {
  const face = card.firstChild;
  face.classList.toggle('red', 'DH'.includes(suit));
  for (const path of face.querySelectorAll('path')) path.setAttribute('d', suitShapes.get(suit));
}

async function turnCard(card, delay) {
  const face = card.firstChild;
  const half = (transform, more) => face.animate({ transform }, { duration: TURN_MILLISECONDS, ...more }).finished;
  await half(['none', SIDEWAYS], { delay, easing: 'ease-in' });
  showSuit(card, card.dataset.card[1]);
  await half([SIDEWAYS, 'none'], { easing: 'ease-out' });
}

const raise = (card, level, duration) =>
  card.animate({ zIndex: [level, level].map((it) => it + Number(card.dataset.row)) }, { duration });

export class BoardView {
  constructor(holder) {
    this.holder = holder;
    this.table = element('div', { className: 'table' });
    this.cards = upTo(52).map((place) => cardElement(place + 1));
    this.piles = new Map();
    this.game = null;
    holder.replaceChildren(this.table);
  }

  lay(game) {
    if (game === this.game) return;
    this.game = game;
    const bands = CELL_COUNTS[game] + 4 > 8 ? 2 : 1;
    this.piles = new Map(pileKeys(game).map((key) => [key, pileElement(key, bands)]));
    this.piles.get('1').tabIndex = 0;
    this.table.style.setProperty('--bands', bands);
    this.table.replaceChildren(...this.piles.values(), element('div', { ariaHidden: 'true' }, ...this.cards));
  }

  // Draws a board to which the passage leads from the record's own one. Cards fly, one column after another where a
  // stagger is given, and turn where their suits are others. A column has the colour of its place on the right board.
  draw({ game, board, passage, inverse, label, wordsOf, placeOf, grips, stagger = 0, most }) {
    const isFirst = this.game === null;
    this.lay(game);
    this.passage = passage;
    this.holder.ariaLabel = label;
    if (this.table.style.getPropertyValue('--most') !== `${most}`) this.table.style.setProperty('--most', most);
    this.table.classList.toggle('slow', stagger > 0);
    for (const [key, cards] of cardsByPile(game, board)) {
      const pile = this.piles.get(key);
      const place = pile.firstChild.dataset.place = placeOf(key);
      pile.firstChild.lastChild.textContent = place && place !== key ? `→${place}` : '';
      pile.ariaLabel = pile.words = wordsOf(key, cards);
      const squeeze = key < '9' ? Math.min(1, most / Math.max(1, cards.length - 1)) : 0;
      cards.forEach((card, row) => {
        const own = renamed(card, inverse);
        const made = this.cards[(prefersStill.matches ? card : own) - 1]; // what does not fly keeps its suit
        const left = cards.length - row; // from this card on
        const classes = { home: key[0] === 'h', last: left === 1 && key[0] !== 'h', grip: left <= grips.get(key) };
        const now = { own, card: cardText(card), key, row };
        const drawn = [pile.x, pile.y, squeeze * row, place, ...Object.values(now), ...Object.values(classes)].join();
        if (made.drawn === drawn) return;  // it stays as it is
        made.drawn = drawn;
        for (const [name, isSo] of Object.entries(classes)) made.classList.toggle(name, isSo);
        made.firstChild.firstChild.dataset.place = place;
        placeAt(made, pile.x, pile.y, squeeze * row);
        this.move(made, now, stagger * pile.x, isFirst || prefersStill.matches);
      });
    }
  }

  move(made, now, delay, isStill) {
    const { before } = made;
    Object.assign(made.dataset, made.before = now);
    if (!isStill) made.style.setProperty('--delay', `${delay}ms`);
    made.style.zIndex = now.row;
    if (before?.card !== now.card) {
      if (isStill) showSuit(made, now.card[1]);
      else turnCard(made, delay);
    }
    if (before?.key !== now.key && !isStill && !this.table.matches('.slow')) raise(made, 200, 500);
  }

  // The cards glide here from where they are on another drawn board, over a ghost of this one: one column after
  // another, then all suits change their names, and the cells and homes come last.
  async carryFrom(view) {
    this.land();
    if (prefersStill.matches) return;
    const starts = this.cards.map((card, place) => {
      const [here, there] = [card, view.cards[place]].map((it) => it.getBoundingClientRect());
      return `translate(${there.x - here.x}px, ${there.y - here.y}px) scale(${there.width / here.width})`;
    });
    const copies = this.cards.map((it) => it.cloneNode(true));
    const ghost = element('div', { className: 'ghost', ariaHidden: 'true' }, ...copies);
    this.table.firstChild.before(ghost);
    await Promise.all(this.cards.map((card, place) => {
      const [before, { key, row }] = [view.cards[place].dataset.card, card.dataset];
      const delay = isColumn(key) ? FLIGHT.column * (Number(key) - 1) + FLIGHT.card * row : FLIGHT.cells;
      if (before !== card.dataset.card) {
        showSuit(card, before[1]);
        turnCard(card, FLIGHT.suits);
      }
      raise(card, 300, FLIGHT.glide + delay);
      const timing = { duration: FLIGHT.glide, delay, easing: 'cubic-bezier(.5, 0, .2, 1)', fill: 'backwards' };
      return card.animate({ transform: [starts[place], 'none'] }, timing).finished;
    }));
    ghost.remove();
  }

  land() {
    const isGliding = this.table.firstChild?.className === 'ghost';
    for (const it of isGliding ? this.table.getAnimations({ subtree: true }) : []) it.finish();
  }

  // Marks cards by their numbers on the record's own board, and piles by their keys there.
  mark(name, cards, keys = []) {
    const marked = keys.map((key) => keyAfter(this.passage, key));
    for (const card of this.cards) card.classList.toggle(name, cards.includes(Number(card.dataset.own)));
    for (const [key, pile] of this.piles) pile.classList.toggle(name, marked.includes(key));
  }
}

function placeAt(it, x, y, row) {
  it.style.translate = `calc(${x} * (var(--w) + var(--gap))) calc(${y} * var(--band) + ${row} * var(--fan))`;
}
