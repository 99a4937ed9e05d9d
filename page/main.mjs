// The page's beginning: what listens to what, and how a state is drawn.

import { start } from '../bindings/javascript/calls.js';
import { chooseGame, chooseList, keep, replace, shuffle, sort, stepTo, swap } from './actions.mjs';
import { collection, read } from './collection.mjs';
import { at, download, isNew, listen, nameButton, say, setIdle, write } from './elements.mjs';
import { holdMore, release, sayMoves } from './hands.mjs';
import { earlierState, forget, keepSoon, kept, layAside, linked, linkOf, LONGEST } from './keeping.mjs';
import {
  chooseFound, copyThis, deal, drawCarried, drawChosen, drawCollection, drawFound, drawShare,
  drawText, knowDeals, openDropped, openFiles, paste, showCarried, typeText,
} from './positions.mjs';
import { answerAs, copyPrinted, drawImported, drawPrinted, importText, savePrinted } from './program.mjs';
import { derive, settled, shown } from './shown.mjs';
import { apply, begin, EMPTY, firstUndone, lastDone, redo, store, undo } from './store.mjs';
import { drawTable, views } from './table.mjs';
import { demonstrate, drawGathered, replay, skip } from './theorem.mjs';
import { inFigures } from './words.mjs';
import { startRuns } from './work.mjs';

const PLAY_MILLISECONDS = 450;
const FORGET = { first: 'Forget it', asked: 'Really forget all of it?' };

let player = null;
let [example, examples] = [null, null]; // the bytes of what a visitor sees first, and of more

// Draws the state: at once, or once its text is read.
store.draw = (action) => {
  const reading = read(store.state.bytes, store.state.game);
  if (reading === true) return drawAll(action);
  write('said', `Reading ${inFigures(collection.bytes.length)} bytes ..`);
  drawBoards({});
  drawText();
  store.read = reading.then((isDone) => { if (isDone) drawAll(action); });
};

function drawAll(action) {
  if (isNew('collection', collection)) drawCollection();
  drawBoards(action);
  at('game').value = store.state.game;
  drawText();
  drawImported();
  for (const [id, entry] of [['undo', lastDone()], ['redo', firstUndone()]]) {
    setIdle(id, !entry);
    at(id).title = entry ? `${at(id).textContent} ${entry.what}` : '';
  }
  say(action.says ?? '', action.isBad);
  if (action.isKept) keepSoon();
}

function drawBoards({ stagger = 0, isBeside = false }) {
  if (!isBeside) setPlayer(null);
  store.state = settled(store.state);
  derive(store.state);
  for (const id of ['shown', 'lead', 'handed', 'share']) at(id).hidden = shown === null;
  drawChosen();
  if (shown === null) return write('title', 'Which boards are the same puzzle?');
  drawTable(player === null ? stagger : 0);
  release();
  drawGathered();
  drawShare();
  drawPlay();
  write('legal', '');
  at('link-text').hidden = true;
}

function setPlayer(next) {
  clearInterval(player);
  player = next;
  at('move').ariaLive = next === null ? 'polite' : 'off';
}

function drawPlay() {
  const { lists, step, steps } = shown;
  if (player !== null && (lists.length === 0 || step >= steps.boards.length - 1)) setPlayer(null);
  nameButton('run', player === null ? 'Play' : 'Pause', ' the list');
}

function play() {
  const isPlaying = player !== null;
  if (!isPlaying && shown.step === shown.steps.boards.length - 1) stepTo(0);
  setPlayer(isPlaying ? null : setInterval(() => stepTo(shown.step + 1, true), PLAY_MILLISECONDS));
  drawPlay();
}

// What the reader presses on the boards stops the list, as other acts do.
store.touched = () => {
  store.acted();
  setPlayer(null);
  drawPlay();
};

function makeLink() {
  const link = linkOf(shown);
  const isTooLong = link.length > LONGEST;
  const why = `This is too long for a link: ${inFigures(link.length)} characters. Save it.`;
  const needs = 'It opens where this file is. Elsewhere, put what begins at # after the address of the page there.';
  write('link-said', isTooLong ? why : location.protocol === 'file:' ? needs : '', isTooLong);
  Object.assign(at('link-text'), { hidden: isTooLong, value: location.href.split('#')[0] + link });
  if (!isTooLong) at('link-text').select();
}

// Shows what the link holds, and takes it out of the address, such that it does not come again over later work.
function follow() {
  const change = linked(location.hash);
  if (!change) return;
  history.replaceState(null, '', location.href.split('#')[0]);
  layAside();
  apply({ what: 'following the link', change });
}

// Forgets what the browser keeps, once that is pressed again; what this tab has is there to undo until it is closed.
async function askToForget() {
  const isAsked = at('forget').textContent === FORGET.asked;
  write('forget', isAsked ? FORGET.first : FORGET.asked);
  if (!isAsked) return;
  const says = 'Forgotten. Undo brings back what this tab had.';
  apply({ what: 'forgetting', change: { ...EMPTY, bytes: example }, says, isKept: false });
  await forget();
}

async function bringBack() {
  const change = await earlierState();
  await layAside();
  apply({ what: 'bringing back earlier work', change });
}

const ACTS = {
  click: {
    undo, redo, shuffle, swap, sort, keep, skip, replay, run: play, moves: sayMoves, 'let-go': release,
    'carry-over': () => views.right.carryFrom(views.left),
    'more-cards': () => holdMore(1), 'fewer-cards': () => holdMore(-1),
    first: () => stepTo(0), back: () => stepTo(shown.step - 1), on: () => stepTo(shown.step + 1),
    last: () => stepTo(Infinity), link: makeLink, carry: showCarried, forget: askToForget, bring: bringBack,
    open: () => at('file').click(), save: () => download([collection.bytes], 'positions.collection'),
    more: () => replace('more examples', examples), import: importText,
    'copy-board': copyThis('board'), 'copy-list': copyThis('list'), 'copy-carried': copyThis('carried'),
    'as-columns': answerAs('columns'), 'as-rows': answerAs('rows'), copy: copyPrinted, 'save-printed': savePrinted,
  },
  change: {
    game: () => chooseGame(Number(at('game').value)), list: () => chooseList(Number(at('list').value)),
    file: () => openFiles(at('file').files), member: drawCarried, command: drawPrinted,
  },
  input: { text: typeText, find: drawFound, step: () => stepTo(Number(at('step').value)) },
  submit: { 'deal-form': deal, 'find-row': chooseFound },
  paste: { text: paste },
  toggle: { program: drawPrinted },
};

async function unpacked(id) {
  const packed = Uint8Array.from(atob(at(id).textContent), (letter) => letter.charCodeAt(0));
  const stream = new Blob([packed]).stream().pipeThrough(new DecompressionStream('gzip'));
  return new Uint8Array(await new Response(stream).arrayBuffer());
}

// Begins with what the browser keeps, or with the example; a link is followed from there.
async function main() {
  const ids = ['calls', 'runs', 'settled', 'example', 'examples'];
  const [calls, runs, settled, ...texts] = await Promise.all(ids.map(unpacked));
  [example, examples] = texts;
  start(await WebAssembly.compile(calls));
  await startRuns(runs);
  knowDeals(settled);
  for (const [event, acts] of Object.entries(ACTS)) {
    for (const [id, act] of Object.entries(acts)) listen(at(id), { [event]: act });
  }
  listen(window, { hashchange: follow, dragover: (event) => event.preventDefault(), drop: openDropped });
  const first = { state: { bytes: example } };
  let before = await kept();
  try {
    begin(before ?? first);
  } catch {
    before = null; // what is kept makes no sense
    begin(first);
  }
  await store.read;
  if (linked(location.hash)) follow();
  else if (before === null) demonstrate();
  await store.read;
  document.body.dataset.is = 'ready';
}

main().catch((error) => write('said', `This browser does not run the page's code: ${error.message}`, true));
