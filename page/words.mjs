// Words of players: cards, piles and moves, as they are seen and as they are read out.

import { countOf, fcanon, IN_SUIT, TITLES } from './library.mjs';
import { cardsByPile, cardText, isColumn, movedCards, renamed, suitOf } from './passages.mjs';

const BUILDING = IN_SUIT.map((it) => (it ? 'by one in the same suit' : 'by one in the other colour'));
const GLYPHS = { C: '♣', D: '♦', H: '♥', S: '♠' };
export const SUIT_NAMES = { C: 'clubs', D: 'diamonds', H: 'hearts', S: 'spades' };
const RANK_NAMES = { A: 'ace', T: '10', J: 'jack', Q: 'queen', K: 'king' };

export const inFigures = (count) => count.toLocaleString('en');
export const counted = (count, one, many = `${one}s`) => `${inFigures(count)} ${count === 1 ? one : many}`;

const cardIn = (text, ranks, between, suits) => (ranks[text[0]] ?? text[0]) + between + suits[text[1]];
export const cardSign = (card) => `${cardIn(cardText(card), { T: '10' }, '', GLYPHS)}\ufe0e`;
const cardWords = (card) => cardIn(cardText(card), RANK_NAMES, ' of ', SUIT_NAMES);

const baseName = (key) => `${isColumn(key) ? 'column' : 'cell'} ${key}`;
export const pileName = (key) => (key[0] === 'h' ? `home ${GLYPHS[key[1]]}` : baseName(key));
export const pileTitle = (key) => (key[0] === 'h' ? `home of ${SUIT_NAMES[key[1]]}` : baseName(key));

// What lies on a pile, the last card first, since that one can be moved.
export function pileWords(key, cards) {
  if (cards.length === 0) return 'empty';
  if (key[0] === 'h') return `up to the ${cardWords(cards[cards.length - 1])}`;
  const words = cards.map(cardWords).reverse().join(', ');
  return isColumn(key) && cards.length > 1 ? `${cards.length} cards, the last one first: ${words}` : words;
}

// The cards that a move brings to another pile; where it is refused, as many as it says.
function cardsOfMove(game, board, list) {
  const [move] = list.moves;
  const moved = movedCards(game, board, fcanon.play(game, board, list).board);
  return moved.length > 0 ? moved : cardsByPile(game, board).get(move[0])?.slice(-Math.max(1, countOf(move))) ?? [];
}

// What becomes of a list, as `check` says it, in words of players.
export function verdictWords(verdict) {
  const [, word, made, reason] = /^(\w+) (\d+) ?(.*)$/.exec(verdict);
  const moves = counted(Number(made), 'move');
  return { wins: `wins in ${moves}`, legal: `${moves}, not won`, illegal: `refused after ${moves}: ${reason}` }[word];
}

// A move on a board, which is a list of its own: its cards, and where they go.
export function moveWords(game, board, list) {
  const [[from, to]] = list.moves;
  const cards = cardsOfMove(game, board, list).map(cardSign).join(' ') || `no card of ${pileName(from)}`;
  if (to === 'h') return `${cards} home`;
  const [top] = cardsByPile(game, board).get(to).slice(-1);
  return isColumn(to) && top && to !== from ? `${cards} on ${cardSign(top)}` : `${cards} to ${pileName(to)}`;
}

// Why the game does not let the held cards go to a pile, as it is seen on a board where a passage leads.
export function refusalWords({ game, board, passage, cards, key, reason }) {
  const face = (card) => cardSign(renamed(card, passage));
  const [first] = cards;
  const [top] = cardsByPile(game, board).get(key).slice(-1);
  const onto = top ? face(top) : '';
  const next = face(4 * board[suitOf(first)] + suitOf(first) + 1);
  const most = reason === 'over capacity' ? fcanon.capacity(game, board, key) : 1;
  const words = {
    'same pile': 'That is the pile it lies on.',
    'empty source': 'There is no card to move.',
    'target taken': `That cell holds the ${onto} already.`,
    'kings only': `Only a king may begin an empty column in ${TITLES[game]}, and ${face(first)} is none.`,
    'not building': `${face(first)} does not go on ${onto}: in ${TITLES[game]} columns go down ${BUILDING[game]}.`,
    'not next': `${face(first)} cannot go home yet: ${next} is next there.`,
    'no run': `The cards from ${face(first)} on do not go down ${BUILDING[game]}, so they cannot move together.`,
    'over capacity': `So many cards cannot go at once: too few cells and columns are empty. At most ${most} can.`,
    'wrong count': `So many cards do not fit there: ${face(first)} does not go on ${onto}.`,
  };
  return words[reason] ?? 'Only one card at a time goes there.';
}

export const exchangedWords = (cards, passage) => cards.map((card) => cardSign(renamed(card, passage))).join(' and ');

// What is proved of a deal that cannot be won, and two commands that check it.
export const unsolvableWords = (number, classes) => `No list of moves wins deal ${number}: play reaches \
${inFigures(classes)} classes of boards, none is won, and a proved program accepted that no move leads out of them. \
These commands check it:`;
export const checkingCommands = (number) =>
  `(echo @ freecell deal-${number}; fcanon deal ${number}) | fcanon-close --collection certificates
fcanon closed --any-size < certificates/deal-${number}.freecell.collection`;
