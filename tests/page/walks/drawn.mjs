// Boards as they are drawn, and as the program prints them, in one form.

import { all, GLYPHS, quoted } from './frame.mjs';

// The piles of a drawn board, and of a printed one, in one form.
export function drawn(side) {
  const cardsOf = ({ dataset: { key } }) => {
    const cards = all(`#${side} .card[data-key=${quoted(key)}]`);
    cards.sort((one, other) => one.dataset.row - other.dataset.row);
    return (key[0] === 'h' ? cards.slice(-1) : cards).map((card) => shown(card.dataset.card)).join(' ');
  };
  return all(`#${side} .pile`).map((pile) => `${pile.dataset.name}: ${cardsOf(pile)}`).join('\n');
}

export const shown = (card) => (card[0] === 'T' ? '10' : card[0]) + GLYPHS[card[1]];

export function asDrawn(text) {
  const [homes, cells, ...columns] = text.trimEnd().split('\n').map((line) => line.split(/:? /).slice(1));
  const piles = [
    ...cells.map((card, place) => `cell ${'abcdefgk'[place]}: ${card === '-' ? '' : shown(card)}`),
    ...homes.map((home) => `home ${GLYPHS[home[0]]}: ${home[2] === '0' ? '' : shown(home[2] + home[0])}`),
    ...columns.map((cards, place) => `column ${place + 1}: ${cards.map(shown).join(' ')}`),
  ];
  return piles.join('\n');
}

// What `check` says of a list, in words of players.
export function inPlayersWords(verdict) {
  const [word, made, ...reason] = verdict.split(' ');
  const moves = made === '1' ? '1 move' : `${made} moves`;
  if (word === 'wins') return `wins in ${moves}`;
  return word === 'legal' ? `${moves}, not won` : `refused after ${moves}: ${reason.join(' ')}`;
}

export function nameOf(key) {
  if (key[0] === 'h') return `home ${GLYPHS[key[1]]}`;
  return `${key < '9' ? 'column' : 'cell'} ${key}`;
}

// A printed board on which moves of one card are made, whatever the rules say of them.
export class Moved {
  constructor(text) {
    this.piles = new Map(asDrawn(text).split('\n').map((line) => line.split(/: ?/)));
  }

  // Gives the pile that the card comes to.
  make([from, to]) {
    const name = (letter) => ('12345678'.includes(letter) ? `column ${letter}` : `cell ${letter}`);
    const cards = this.piles.get(name(from)).split(' ');
    const card = cards.pop();
    this.piles.set(name(from), cards.join(' '));
    const target = to === 'h' ? `home ${card.at(-1)}` : name(to);
    const onto = to === 'h' ? '' : this.piles.get(target);
    this.piles.set(target, onto === '' ? card : `${onto} ${card}`);
    return target;
  }

  // A move of the last card in words, before it is made.
  said([from, to]) {
    const name = (letter) => ('12345678'.includes(letter) ? `column ${letter}` : `cell ${letter}`);
    const card = this.piles.get(name(from)).split(' ').at(-1) || `no card of ${name(from)}`;
    const onto = to === 'h' || to === from ? '' : this.piles.get(name(to)).split(' ').at(-1);
    if (to === 'h') return `${card} home`;
    return onto !== '' && '12345678'.includes(to) ? `${card} on ${onto}` : `${card} to ${name(to)}`;
  }

  drawn() {
    return [...this.piles].map(([name, cards]) => `${name}: ${cards}`).join('\n');
  }
}
