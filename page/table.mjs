// The two boards, and what is said of them.

import { CELLS, SUITS } from '../bindings/javascript/calls.js';
import { BoardView } from './boards.mjs';
import { at, drawing, element, fill, hide, nameButton, setIdle, write } from './elements.mjs';
import { countOf, fcanon, TITLES } from './library.mjs';
import { isColumn, keyAfter, movedCards, pileKeys, PLACE } from './passages.mjs';
import { shown } from './shown.mjs';
import { moveWords, pileTitle, pileWords, SUIT_NAMES, verdictWords } from './words.mjs';

const ONE_PUZZLE = 'These two boards are the same puzzle.';

export const views = { left: new BoardView(at('left')), right: new BoardView(at('right')) };

export function drawTable(stagger = 0) {
  const { record, isCanonical, steps: { boards }, step } = shown;
  write('boards-title', `${record.name}, ${TITLES[record.game]}`);
  drawSide('left', 'right', `Board ${record.name}`, 'becomes', stagger);
  drawSide('right', 'left', `${isCanonical ? 'Canonical board' : 'Image'} of ${record.name}`, 'was', stagger);
  const moved = movedCards(record.game, boards[Math.max(0, step - 1)], boards[step]);
  for (const view of Object.values(views)) {
    view.mark('moved', moved);
    view.mark('exchanged', shown.exchange?.cards ?? []);
  }
  drawPassage();
  drawCaption();
  drawLists();
}

function drawSide(name, other, label, verb, stagger) {
  const { record: { game }, most, sides: { [name]: side, [other]: beside } } = shown;
  const wordsOf = (key, cards) => {
    const image = pileTitle(keyAfter(beside.passage, keyAfter(side.inverse, key)));
    const title = pileTitle(key);
    return `${title[0].toUpperCase()}${title.slice(1)}: ${pileWords(key, cards)}. It ${verb} ${image}.`;
  };
  const placeOf = (key) => (isColumn(key) ? keyAfter(shown.sides.right.passage, keyAfter(side.inverse, key)) : '');
  views[name].draw({ game, ...side, label, wordsOf, placeOf, grips: gripsOf(game, side.board), stagger, most });
}

export function gripsOf(game, board) {
  const all = fcanon.moves(game, board).sort((one, other) => countOf(one) - countOf(other));
  return new Map(all.map((move) => [move[0], countOf(move) || 1])); // of a pile the last one counts
}

// What the passage from the left board to the right one does: what suits become, and where piles come from.
const pip = (suit) => drawing(suit, `pip ${'DH'.includes(suit) ? 'red' : ''}`);
const arrows = [...SUITS].map((suit) => element('span', { className: 'arrow', role: 'img' }, pip(suit), '→', pip(suit)));
const chips = [...`12345678${CELLS}`].map(() => element('span', { className: 'chip' }));
const orderOf = (name, all) => element('span', { className: 'order' }, name, ...all.flatMap((chip) => [' ', chip]));
const [columnOrder, cellOrder] = [orderOf('columns', chips.slice(0, 8)), orderOf('cells', chips.slice(8))];
chips.slice(0, 8).forEach((chip, place) => { chip.dataset.place = place + 1; });
at('passage').append(...arrows, columnOrder, cellOrder);

function drawPassage() {
  const { left, right } = shown.sides;
  arrows.forEach((arrow, place) => {
    const [, after] = keyAfter(right.passage, keyAfter(left.inverse, `h${SUITS[place]}`));
    const words = `${SUIT_NAMES[SUITS[place]]} become ${SUIT_NAMES[after]}`;
    if (arrow.title !== words) arrow.lastChild.replaceWith(pip(after));
    Object.assign(arrow, { title: words, ariaLabel: words });
  });
  const isThere = (key) => pileKeys(shown.record.game).includes(key);
  [...`12345678${CELLS}`].forEach((key, place) => {
    chips[place].textContent = isThere(key) ? keyAfter(left.passage, keyAfter(right.inverse, key)) : '';
  });
  cellOrder.hidden = left.board.subarray(PLACE.cells, PLACE.lengths).every((card) => card === 0);
}

function drawCaption() {
  const { isCanonical, isSame, isSorted, times, exchange } = shown;
  write('right-title', isCanonical ? 'Canonical board' : 'Image, not canonical');
  const swapped = `Two cards swapped: ${exchange?.isOne ? 'the same' : 'another'} puzzle.`;
  write('title', exchange ? swapped : isSame ? ONE_PUZZLE : 'These two boards are NOT the same puzzle!', !isSame);
  at('right').parentElement.classList.toggle('other', !isCanonical);
  write('sort', isSorted ? 'Follow the moves' : 'Show canonical');
  hide('sort', isCanonical && !isSorted);
  write('left-said', times > 0 ? 'shuffled' : '');
  hide('keep', times === 0 && !exchange);
  nameButton('swap', 'Swap', exchange ? ' them back' : ' two cards');
}

function drawLists() {
  const { lists } = shown;
  const nameOf = ({ from }, place) => (from ? `from ${from}` : place + 1);
  fill('list', 'option', lists.map((list, place) => `${nameOf(list, place)}: ${verdictWords(list.verdict)}`));
  for (const id of ['play', 'run', 'copy-list']) hide(id, lists.length === 0);
  if (lists.length > 0) return drawStep();
  for (const id of ['count', 'move', 'expansion']) write(id, '');
}

function drawStep() {
  const { steps, step, lists, chosen } = shown;
  const last = steps.boards.length - 1;
  const total = lists[chosen].moves.length;
  at('list').value = chosen;
  Object.assign(at('step'), { max: last, value: step, ariaValueText: `${step} of ${total} moves` });
  write('count', `${step} of ${total}`);
  for (const id of ['first', 'back']) setIdle(id, step === 0);
  for (const id of ['on', 'last']) setIdle(id, step === last);
  const isSame = steps.isAlike && shown.isSame;
  const made = step > 0 ? `Made: ${moveNow(step - 1)}. ` : '';
  write('move', `${made}${nextWords()} ${isSame ? 'Still the same puzzle.' : 'NOT the same puzzle!'}`, !isSame);
  drawExpansion();
}

// A move of the list on one of the boards, and the board before it; so many moves are made there.
function moveOn({ passage }, step) {
  const { record: { game }, lists, chosen, steps } = shown;
  const { sign, moves } = lists[chosen];
  const list = fcanon.carry(game, passage, { sign, moves: [moves[step]] });
  return { board: fcanon.image(game, steps.boards[step], passage), list };
}

function moveNow(step) {
  const [here, there] = [shown.sides.left, shown.sides.right].map((side) => {
    const { board, list } = moveOn(side, step);
    return moveWords(shown.record.game, board, list);
  });
  return `${here}; on the right board ${there}`;
}

function nextWords() {
  const { record, steps, step, lists, chosen } = shown;
  if (step < steps.boards.length - 1) return `Next: ${moveNow(step)}.`;
  if (steps.refusal) {
    const [, key] = lists[chosen].moves[step];
    const isMany = steps.refusal === 'over capacity';
    const most = isMany ? `, which is ${fcanon.capacity(record.game, steps.boards[step], key)}` : '';
    return `Move ${step + 1} is refused on both boards: ${moveNow(step)}: ${steps.refusal}${most}.`;
  }
  const isWon = lists[chosen].verdict.startsWith('wins');
  return isWon ? 'All cards are home on both boards.' : `The list ends after ${step} moves.`;
}

function drawExpansion() {
  const { record, step, lists, chosen, sides, isSorted } = shown;
  const expanded = (side) => {
    const { board, list } = moveOn(side, step - 1);
    return fcanon.expand(record.game, board, list.moves[0]).join(' ');
  };
  const here = lists[chosen].sign === '>' || step === 0 ? '' : expanded(sides.left);
  at('expansion').hidden = !here.includes(' ');
  if (at('expansion').hidden) return;
  const there = isSorted ? '' : `, ${expanded(sides.right)} there`;
  write('expansion', `Card by card: ${here} here${there}.`);
}
