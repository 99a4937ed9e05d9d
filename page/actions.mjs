// What can be done: each action changes the store's state once, and is undone as one.

import { carriedTo, collection } from './collection.mjs';
import { say } from './elements.mjs';
import { fcanon, headerLine, listLine, listOf, MOST } from './library.mjs';
import { bytesOf, endingOf, GREATER, joined, LINE_FEED, linesIn, spliced } from './lines.mjs';
import { anyPassage, areEqual, inAnyOrder, isColumn, PLACE, upTo } from './passages.mjs';
import { keyOf, shown } from './shown.mjs';
import { apply, AT_FIRST, EMPTY, store } from './store.mjs';
import { exchangedWords, inFigures, moveWords } from './words.mjs';

const STAGGER_MILLISECONDS = 40;
const MOST_SEEN = 8; // boards, all of which are drawn
const FIRST_NAME = 45; // of a name, so that the words after it have room

const seenWith = (one) => [...store.state.seen, { ...one, of: keyOf(shown.base) }].slice(-MOST_SEEN);

export function shuffleBy(passage) {
  const { record, isCanonical } = shown;
  const times = store.state.times + 1;
  const isRight = fcanon.areSame(record.game, record.board, fcanon.image(record.game, record.board, passage));
  const still = isCanonical ? 'same canonical board.' : 'the right board has not moved.';
  const often = times === 1 ? 'once' : `${inFigures(times)} times`;
  const says = `Shuffled ${often}: ${isRight ? still : 'NOT the same canonical board!'}`;
  const change = { shuffle: passage, times, seen: seenWith({ shuffle: passage, exchange: store.state.exchange }) };
  return { what: 'the shuffle', says, isBad: !isRight, change, stagger: STAGGER_MILLISECONDS, isBeside: true };
}

export const shuffle = () => apply(shuffleBy(anyPassage(shown.record.game)));

// What an exchange of two cards of the shown board changes, mostly to another position.
export function exchangeBy(one, other) {
  const { sides, record: { game }, chosen, step } = shown;
  const board = sides.own.slice();
  [board[one], board[other]] = [board[other], board[one]];
  const isOne = fcanon.areSame(game, board, sides.own);
  const exchange = { board, cards: [board[one], board[other]], list: chosen, step, isOne };
  const words = exchangedWords(exchange.cards, sides.left.passage);
  const said = isOne ? 'the same puzzle under other names.' : 'another puzzle, and another canonical board.';
  const seen = seenWith({ shuffle: store.state.shuffle, exchange });
  const change = { exchange, list: 0, step: 0, seen, isSorted: false };
  return { what: `the swap of ${words}`, says: `${words} swapped: ${said}`, change };
}

export function exchangeBack() {
  const { list, step } = store.state.exchange;
  const says = 'The two cards are back, and so is the canonical board.';
  return { what: 'the swap back', says, change: { exchange: null, list, step } };
}

export function swap() {
  if (store.state.exchange) return apply(exchangeBack());
  const { own } = shown.sides;
  const isCard = (place) => place >= PLACE.cards && own[place] > 0;
  const [one, other] = inAnyOrder([...own.keys()].filter(isCard));
  if (other === undefined) return say('There are no two cards in the columns.', true);
  apply(exchangeBy(one, other));
}

export function showSeen({ shuffle: passage, exchange }) {
  const { list, step } = exchange ? AT_FIRST : store.state.exchange ?? store.state;
  const change = { shuffle: passage, exchange, list, step };
  apply({ what: 'the choice of a board', change, stagger: STAGGER_MILLISECONDS });
}

// Shows the image on the right, or the canonical board.
export const sort = () => apply({
  what: 'the choice of the right board', change: { isSorted: !shown.isSorted }, stagger: STAGGER_MILLISECONDS,
});

export const choose = ({ number, name }, more = {}) =>
  apply({ what: `the choice of ${name}`, change: { ...AT_FIRST, number, name, ...more } });

export const chooseList = (list) => apply({ what: 'the choice of a list', change: { list, step: 0 } });

export function stepTo(place, isBeside = false) {
  if (!shown) return;
  const step = Math.max(0, Math.min(place, shown.steps.boards.length - 1));
  const joins = `${shown.base.number}/${shown.chosen}`;
  if (step !== shown.step) apply({ what: 'the steps', joins, change: { step }, isBeside });
}

export function carryTo(member) {
  const { record, lists, chosen } = shown;
  const carried = { ...carriedTo(member, lists[chosen]), from: record.name };
  choose(member, { carried, list: member.lists.length });
}

export const replace = (what, bytes, imported = null) =>
  apply({ what, change: { ...EMPTY, game: store.state.game, bytes, imported } });

// What changes with the text: two cards were exchanged on the board that was there.
const withoutExchange = () => (store.state.exchange ? AT_FIRST : {});

export function type(bytes) {
  const change = { bytes, imported: null, carried: null, ...withoutExchange() };
  apply({ what: 'the typing', joins: 'typing', change });
}

export const chooseGame = (game) => apply({ what: 'the choice of a game', change: { game, ...withoutExchange() } });

// Adds a record with these lines of lists at the end of the text, where it has room there, and shows it.
export function append(what, { game, name }, board, lists = [], more = {}) {
  const { bytes, starts, reading } = collection;
  if (reading) return say('The collection is being read.', true);
  const isEnded = bytes.length === 0 || bytes[bytes.length - 1] === LINE_FEED;
  const before = (isEnded ? '' : '\n') + (bytes.length > 0 ? '\n' : '');
  const added = before + headerLine({ game, name }) + fcanon.write(game, board) + lists.join('');
  const all = joined(bytes, bytesOf(added.replaceAll('\n', endingOf(bytes))));
  if (all.length > MOST.input || starts.length >= MOST.records) return say('The collection is full.', true);
  apply({ what, change: { ...AT_FIRST, bytes: all, number: starts.length + 1, name, ...more } });
}

function shuffledName(name) {
  const first = `${name.replace(/-shuffled-\d+$/, '').slice(0, FIRST_NAME)}-shuffled`;
  const names = new Set(collection.names);
  return upTo(names.size + 1).map((number) => `${first}-${number + 1}`).find((it) => !names.has(it));
}

// Adds the left board as it is before all moves, with its lists, and goes on from there.
export function keep() {
  const { record: { game, name, board, lists }, shuffle: passage, times, chosen, step } = shown;
  const record = { game, name: times > 0 ? shuffledName(name) : name };
  const carriedLists = lists.map((list) => listLine(fcanon.carry(game, passage, list)));
  append('keeping the board', record, fcanon.image(game, board, passage), carriedLists, { list: chosen, step });
}

// The first moves of a list, as moves of several cards.
const asRuns = ({ sign, moves }, count) =>
  moves.slice(0, count).map((move) => (sign === '>' && [...move].every(isColumn) ? `${move}v1` : move));

// Makes a move that the library admits: the next one of the list, or of another list with the same moves before it; or
// else the list grows, or a new one begins, in a record of its own where two cards are exchanged. No list loses a move.
export function makeMove(move) {
  const { record, lists, chosen, step, sides, shuffle: passage } = shown;
  if (collection.reading) return say('The collection is being read.', true);
  const moves = [...lists.length > 0 ? asRuns(lists[chosen], step) : [], move];
  const onLeft = fcanon.carry(record.game, passage, listOf(move));
  const what = `the move ${moveWords(record.game, sides.left.board, onLeft)}`;
  const place = { shuffle: passage, times: shown.times, step: 1 };
  if (shown.exchange) return append(what, record, record.board, [listLine(listOf(...moves))], place);
  const begins = (list) => list.moves.length > step && areEqual(moves, asRuns(list, step + 1));
  const list = [chosen, ...lists.keys()].find((place) => place in lists && begins(lists[place]));
  if (list !== undefined) return apply({ what, change: { list, step: step + 1 } });
  apply({ what, change: { ...withList(record, moves), step: step + 1, carried: null } });
}

// The text with these moves in a record, over the list that is shown where all its moves are made, as moves of several
// cards, else as a new list; and which list it is.
function withList(record, moves) {
  const { bytes } = collection;
  const { chosen, step } = shown;
  const { sign, moves: { length } } = record.lists[chosen] ?? listOf();
  const isGrown = sign === '>>' && 0 < length && length === step;
  const list = isGrown ? chosen : record.lists.length;
  const own = bytes.subarray(record.span.start, record.span.end);
  const lines = linesIn(own);
  const { start, end } = isGrown ? lines.filter((it) => own[it.start] === GREATER)[list] : lines.at(-1);
  const taken = own.subarray(isGrown ? start : end, end);
  const put = bytesOf((isGrown ? '' : endingOf(bytes)) + listLine(listOf(...moves)).trimEnd());
  return { bytes: spliced(bytes, { from: record.span.start + end - taken.length, taken, put }), list };
}
