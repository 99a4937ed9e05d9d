// Moves by hand.

import { all, at, choose, differ, frame, paste, plain, press, set } from './frame.mjs';
import { asDrawn, drawn, inPlayersWords, Moved } from './drawn.mjs';

export function walked({ example }) {
  paste(example);
  const pile = all('#left .pile.column')[0];
  pile.focus();
  const press = (key) => {
    const { KeyboardEvent } = frame.contentWindow;
    const { activeElement } = frame.contentDocument;
    activeElement.dispatchEvent(new KeyboardEvent('keydown', { key, bubbles: true, cancelable: true }));
  };
  const keys = { ArrowRight: 'column 2', ArrowUp: 'cell b', End: 'column 8', ArrowLeft: 'column 7', Home: 'cell a' };
  return Object.entries(keys).flatMap(([key, wanted]) => {
    press(key);
    const { activeElement } = frame.contentDocument;
    const stops = all('#left .pile').filter((it) => it.tabIndex === 0).length;
    const lit = all('.pile.lit').map((it) => it.dataset.name).join();
    const image = activeElement.getAttribute('aria-label').match(/ It becomes (.*)\.$/)[1];
    return [...differ(key, activeElement.dataset.name, wanted), ...differ('stops', stops, 1),
      ...differ('lit', lit, `${wanted},${image}`)];
  });
}

// A list typed move by move on another record grows in the text, and leads where it led.
export function typed({ example, lists, records }) {
  const { name, list, verdict, made } = lists.find((it) => it.name === 'looks-new');
  const { board } = records.find((it) => it.name === name);
  paste(`@ freecell typed\n${board}`);
  const here = new Moved(board);
  const found = list.slice(0, made).flatMap((move) => {
    here.make(move);
    [...move].forEach((key) => press(key));
    return differ(move, drawn('left'), here.drawn());
  });
  const [line] = at('text').value.split('\n').filter((it) => it.startsWith('>'));
  found.push(...differ('label', at('list').selectedOptions[0].textContent, `1: ${inPlayersWords(verdict)}`));
  found.push(...differ('moves', line.split(' ').length - 1, made));
  press('z', { ctrlKey: true });
  found.push(...differ('undone', at('count').textContent, `${made - 1} of ${made - 1}`));
  press('y', { ctrlKey: true });
  return [...found, ...differ('redone', at('count').textContent, `${made} of ${made}`)];
}

// A move by hand amid a list of moves of one card makes a list of its own, which has the same moves before it: also
// where one card alone went to an empty column, though more could have gone.
export function branched({ example, lists, records }) {
  const { name, list, place } = lists.find((it) => it.name === 'deal-1');
  const made = list.findIndex((move, step) => move === '26' && list[step + 1] === '2d') + 1;
  const here = new Moved(records.find((it) => it.name === name).board);
  for (const move of [...list.slice(0, made), '1d']) here.make(move);
  paste(example);
  choose(name);
  set('step', made, 'input');
  [...'1d'].forEach((key) => press(key));
  const line = at('text').value.split('\n').find((it) => it.startsWith('>> '));
  return [...differ('here', drawn('left'), here.drawn()), ...differ('list', at('list').value, String(place + 1)),
    ...differ('moves', line.split(' ').length - 1, made + 1)];
}

// A press of the pointer on a card or a pile of either board; the right one's moves are made on both alike.
export function pressed({ example, records: [{ name, board, canonical }], lists: [{ list: [here], image: [there] }] }) {
  paste(example);
  const made = `Made: ${new Moved(board).said(here)}; on the right board ${new Moved(canonical).said(there)}.`;
  const touch = (side, key) => {
    const card = all(`#${side} .card.last`).find((it) => it.dataset.key === key);
    const it = card ?? all(`#${side} .pile`).find((pile) => pile.dataset.key === key);
    const { PointerEvent } = frame.contentWindow;
    for (const what of ['pointerdown', 'pointerup']) {
      it.dispatchEvent(new PointerEvent(what, { bubbles: true, isPrimary: true, button: 0 }));
    }
  };
  return [['left', here], ['right', there]].flatMap(([side, [from, to]]) => {
    choose(name);
    touch(side, from);
    const lit = all('.pile.target').map((pile) => pile.dataset.key);
    touch(side, to);
    return [...differ('lit', lit.includes(here[1]) && lit.includes(there[1]), true),
      ...differ(side, plain(at('move').textContent).startsWith(made), true)];
  });
}

// A move that the game refuses is explained in plain words, and nothing is made.
export function refusals({ example, records: [{ name, board }] }) {
  paste(example);
  choose(name);
  const described = {
    12: '6♠ does not go on 9♣', '1h': '6♠ cannot go home yet: A♠ is next there', a: 'There is no card to move',
  };
  return Object.entries(described).flatMap(([move, words]) => {
    [...move].forEach((key) => press(key));
    press('Escape');
    const said = at('counter').textContent.replaceAll('\ufe0e', '');
    return [...differ(move, said.startsWith(words) ? words : said, words),
      ...differ('made', drawn('left'), asDrawn(board))];
  });
}

const pileOf = (key, side = 'left') => all(`#${side} .pile`).find((pile) => pile.dataset.key === key);

// A key is pressed in a pile, as a reader does who has no pointer.
function pressIn(pile, key, more = {}) {
  const { KeyboardEvent } = frame.contentWindow;
  pile.focus();
  pile.dispatchEvent(new KeyboardEvent('keydown', { key, bubbles: true, cancelable: true, ...more }));
}

// By the keyboard alone as many cards of a run go to an empty column as are wanted.
export function counts({ runs: { text } }) {
  return [1, 2, 3].flatMap((count) => {
    paste(text);
    const cards = drawn('left').match(/column 1: (.*)/)[1].split(' ');
    pressIn(pileOf('1'), 'Enter');
    if (count === 1) pressIn(pileOf('1'), 'ArrowDown', { shiftKey: true });
    for (let more = 1; more < count; more++) pressIn(pileOf('1'), 'ArrowUp', { shiftKey: true });
    const held = all('#left .card.held').length;
    pressIn(pileOf('5'), 'Enter');
    const moved = drawn('left').match(/column 5: (.*)/)[1];
    return [...differ('held', held, count), ...differ(`${count} moved`, moved, cards.slice(-count).join(' ')),
      ...differ('let go', at('holding').hidden, true)];
  });
}

// A pile says whether it is held and where the held card may go; and where nothing is held, neither.
export function states({ example, records: [{ name }] }) {
  paste(example);
  choose(name);
  pressIn(pileOf('1'), 'Enter');
  const said = (key) => pileOf(key).getAttribute('aria-label');
  const found = [...differ('held', said('1').endsWith(' It is held.'), true),
    ...differ('pressed', pileOf('1').getAttribute('aria-pressed'), 'true'),
    ...differ('target', said('a').endsWith(' The held card may go here.'), true),
    ...differ('cards', said('1').includes('7 cards, the last one first: 6 of spades, 6 of diamonds'), true)];
  const others = all('#left .pile').filter((pile) => pile.getAttribute('aria-label').includes('may go here'));
  const targets = all('#left .pile.target').length;
  pressIn(pileOf('1'), 'Escape');
  found.push(...differ('targets', others.length, targets));
  return [...found, ...differ('let go', said('1').includes('held'), false),
    ...differ('let go', pileOf('1').getAttribute('aria-pressed'), 'false')];
}

// All moves are said on demand, those to empty cells once.
export function legal({ runs: { text }, example, records: [{ name }] }) {
  paste(example);
  choose(name);
  at('moves').click();
  const first = plain(at('legal').textContent);
  paste(text);
  at('moves').click();
  const runs = plain(at('legal').textContent);
  at('on').click();
  return [...differ('of a deal', first, LEGAL_OF_DEAL),
    ...differ('runs', runs.includes('Q♦ J♣ to an empty column'), true),
    ...differ('ends with the board', at('legal').textContent, '')];
}

// Of deal 1, by hand: each last card to a cell, since none goes on another one.
const LEGAL_OF_DEAL = 'Moves on the left board: 6♠ to a cell, 9♣ to a cell, 2♥ to a cell, 6♥ to a cell, '
  + '6♣ to a cell, 3♦ to a cell, 8♣ to a cell, 10♣ to a cell.';

// Single letters and digits can be turned off; undo stays.
export function lettersOff({ example, records: [{ name, board }] }) {
  paste(example);
  choose(name);
  at('keys').click();
  for (const key of ['s', '1', 'a', '?']) press(key);
  const found = differ('nothing', drawn('left'), asDrawn(board));
  found.push(...differ('nothing is held', all('.card.held').length, 0));
  at('shuffle').click();
  press('z', { ctrlKey: true });
  found.push(...differ('undone', drawn('left'), asDrawn(board)));
  at('keys').click();
  [...'1a'].forEach((key) => press(key));
  return [...found, ...differ('on again', drawn('left') !== asDrawn(board), true)];
}

// Cards that a move can take are dragged by a finger, and the others let the page scroll.
export function gripped({ runs: { text }, example, records: [{ name }] }) {
  const grips = () => all('#left .card').filter((card) => card.dataset.key === '1')
    .sort((one, other) => one.dataset.row - other.dataset.row)
    .map((card) => getComputedStyle(card).touchAction === 'none').join();
  paste(text);
  const found = differ('a run', grips(), 'true,true,true');
  paste(example);
  choose(name);
  return [...found, ...differ('the last card', grips(), 'false,false,false,false,false,false,true')];
}

// A card is dragged to where the pointer then is: on an empty pile, and on a column that others cover.
export async function dragged({ example, records: [{ name, board }], lists: [{ list: [toCell] }], runs: { text } }) {
  paste(example);
  choose(name);
  await rest();
  drag(toCell);
  const here = new Moved(board);
  here.make(toCell);
  const found = differ('to a cell', drawn('left'), here.drawn());
  paste(text);
  await rest();
  drag('23');
  return [...found, ...differ('to an empty column', drawn('left').match(/column 3: (.*)/)[1].length > 0, true)];
}

// Waits until no card flies.
const rest = () => Promise.allSettled(frame.contentDocument.getAnimations().map((it) => it.finished));

// Drags the last card of a pile of the left board to the middle of another one.
function drag([from, to]) {
  const { PointerEvent, scrollTo } = frame.contentWindow;
  scrollTo(0, 0);
  const centre = (it) => {
    const { x, y, width, height } = it.getBoundingClientRect();
    return { clientX: x + width / 2, clientY: y + height * .6 };
  };
  const card = all('#left .card.last').find((it) => it.dataset.key === from);
  const [start, end] = [centre(card), centre(pileOf(to))];
  const beside = { clientX: start.clientX + 20, clientY: start.clientY };
  const events = [['pointerdown', start], ['pointermove', beside], ['pointermove', end], ['pointerup', end]];
  for (const [what, place] of events) {
    card.dispatchEvent(new PointerEvent(what, { bubbles: true, isPrimary: true, button: 0, pointerId: 7, ...place }));
  }
}
