// What changes is undone and redone, and nothing is lost.

import {
  all, at, choose, differ, frame, inWorks, later, load, paste, press, reload, set, until, works,
} from './frame.mjs';
import { asDrawn, drawn } from './drawn.mjs';

// All that is to be seen of a state.
function described() {
  const words = ['boards-title', 'left-said', 'count', 'list', 'move'].map((id) => at(id).textContent);
  const values = ['text', 'game', 'list'].map((id) => at(id).value);
  return [...values, all('#gathered .seen').length, drawn('left'), drawn('right'), ...words];
}

const differing = (what, got, wanted) => wanted.flatMap((it, place) => differ(`${what}: ${place}`, got[place], it));

const type = (text) => set('text', text, 'input');
const isIdle = (id) => at(id).ariaDisabled === 'true';

// Acts of each kind, of which each is undone as one.
function acts({ board }) {
  return {
    shuffle: () => at('shuffle').click(),
    swap: () => at('swap').click(),
    'swap back': () => at('swap').click(),
    'steps, which are one': () => { at('on').click(); at('on').click(); },
    'another record': () => choose('deal-164'),
    'a deal': () => at('deal-form').querySelector('button').click(),
    'a note': () => type(`# an hour's note\n${at('text').value}`),
    'a move by hand': () => [...'1a'].forEach((key) => press(key)),
    'another move by hand': () => [...'2b'].forEach((key) => press(key)),
    'one record again': () => choose('deal-1'),
    'the last step': () => at('last').click(),
    'a list carried': () => at('carry').click(),
    'another shuffle': () => at('shuffle').click(),
    'a board kept': () => at('keep').click(),
    'another game': () => set('game', '1', 'change'),
    'another text': () => type(board),
    'more examples': () => at('more').click(),
  };
}

// Each act is undone and redone, however many there were.
export async function history({ example, records: [{ board }] }) {
  await load();
  paste(example);
  choose('deal-1');
  const states = [['the beginning', described()]];
  for (const [name, act] of Object.entries(acts({ board }))) {
    act();
    states.push([name, described()]);
  }
  const isChanged = (state, place) => differing('', state, states[place][1]).length > 0;
  const changes = ([name, state], place) => differ(`${name} changes`, isChanged(state, place), true);
  const found = states.slice(1).flatMap(changes);
  for (const [name, state] of states.slice(0, -1).reverse()) {
    at('undo').click();
    found.push(...differing(`undone to ${name}`, described(), state));
  }
  for (const [name, state] of states.slice(1)) {
    at('redo').click();
    found.push(...differing(`redone to ${name}`, described(), state));
  }
  return [...found, ...differ('nothing more', isIdle('redo'), true)];
}

// What was undone is still there after another act.
export async function undoneAndLeft({ example }) {
  await load();
  paste(example);
  choose('deal-1');
  const states = ['shuffle', 'swap'].map((id) => {
    at(id).click();
    return described();
  });
  at('undo').click();
  at('undo').click();
  at('shuffle').click();
  const last = described();
  const visited = [];
  while (!isIdle('undo')) {
    at('undo').click();
    visited.push(described());
  }
  while (!isIdle('redo')) at('redo').click();
  const isVisited = (state) => visited.some((it) => differing('', it, state).length === 0);
  return [...states.flatMap((state, place) => differ(`state ${place}`, isVisited(state), true)),
    ...differing('the last one', described(), last)];
}

const firstOf = (line, count) => line.split(' ').slice(0, count).join(' ');

// A move amid a list that was begun by hand: the list keeps all its moves, and the branch is a list beside it.
export async function branchKept({ lists, records }) {
  const { name, list } = lists.find((it) => it.name === 'deal-1');
  const { board } = records.find((it) => it.name === name);
  paste(`@ freecell branch\n${board}`);
  const most = 30, from = 5;
  list.slice(0, most).flatMap((move) => [...move]).forEach((key) => press(key));
  const linesNow = () => at('text').value.split('\n').filter((line) => line.startsWith('>'));
  const [before] = linesNow();
  set('step', from, 'input');
  const next = all('#left .pile').map((pile) => pile.dataset.key).filter((key) => key >= '1' && key < '9')
    .flatMap((key) => ['a', 'b', 'c', 'd'].map((cell) => key + cell)).filter((move) => move !== list[from]);
  for (const move of next) {
    if (linesNow().length > 1) break;
    [...move].forEach((key) => press(key));
    press('Escape');
  }
  const [kept, branch] = linesNow();
  const found = [...differ('the list', kept, before), ...differ('its moves', before.split(' ').length - 1, most),
    ...differ('the branch', branch?.split(' ').length - 1, from + 1),
    ...differ('begins alike', firstOf(branch ?? '', from + 1), firstOf(before, from + 1))];
  at('back').click();
  [...list[from]].forEach((key) => press(key));
  return [...found, ...differ('the first list again', at('list').value, '0'), ...differ('lists', linesNow().length, 2)];
}

// Waits until what is shown is kept.
const isKept = () => until(() => at('kept').textContent === 'This browser keeps your work.');

// What is kept and makes no sense is not shown.
export async function keptBadly({ example, twelve }) {
  await load();
  paste(example);
  at('swap').click();
  await isKept();
  const [work] = await works();
  const exchange = { ...work.state.exchange, board: 'no board' };
  const found = differ('kept', work.state.exchange.board.length, 72);
  for (const state of [{ ...work.state, exchange }, { bytes: 7 }]) {
    await inWorks((all) => all.put({ ...work, state }), 'readwrite');
    await reload();
    found.push(...differ(JSON.stringify(state).slice(-40), at('text').value.startsWith(twelve.text), true));
  }
  return found;
}

// After a reload all is as it was, with its past and its future. Before all is forgotten that is asked once more, and
// what this tab had comes back by undo.
export async function keptHere({ example, twelve }) {
  await load();
  paste(`# mine\r\n${example}`);
  choose('looks-new');
  const beginning = described();
  const states = ['shuffle', 'swap', 'undo'].map((id) => {
    at(id).click();
    return described();
  });
  await isKept();
  await later(100);
  await reload();
  const found = differing('after a reload', described(), states[2]);
  at('undo').click();
  found.push(...differing('undone after it', described(), beginning));
  at('redo').click();
  at('redo').click();
  found.push(...differing('redone', described(), states[1]));
  await later(100);
  at('forget').click();
  await later(100);
  found.push(...differ('asked', (await works()).length, 1));
  at('forget').click();
  await until(() => at('text').value.startsWith(twelve.text));
  await later(100);
  found.push(...differ('kept', (await works()).length, 0), ...differ('the example', drawn('left'), asDrawn(twelve.board)));
  at('shuffle').click();
  await isKept();
  found.push(...differ('kept of it', (await inWorks((all) => all.count(), 'readonly', 'entries')), 1));
  at('undo').click();
  at('undo').click();
  return [...found, ...differing('brought back', described(), states[1])];
}

function transferOf(files, text) {
  const given = new frame.contentWindow.DataTransfer();
  for (const [name, content] of Object.entries(files)) given.items.add(new frame.contentWindow.File([content], name));
  if (text) given.setData('text/plain', text);
  return given;
}

function drop(given) {
  const { DragEvent } = frame.contentWindow;
  const event = new DragEvent('drop', { dataTransfer: given, bubbles: true, cancelable: true });
  frame.contentDocument.body.dispatchEvent(event);
}

const namesShown = () => all('#groups button').map((button) => button.textContent).sort().join();

// Files that are dropped together are all read, with headers where they have none; and so is a text.
export async function dropped({ records: [{ board }, { board: other }] }) {
  await load();
  const [one, three] = ['first', 'third'].map((name) => `@ freecell ${name}\n${board}`);
  drop(transferOf({ 'one.txt': one, 'the second.txt': other, 'three.txt': three }));
  await until(() => namesShown().includes('third'));
  const found = differ('files', namesShown(), ['first', 'the-second', 'third'].sort().join());
  found.push(...differ('refused', all('#faults li').length, 0));
  drop(transferOf({}, `@ freecell dropped\n${board}`));
  await until(() => namesShown() === 'dropped');
  found.push(...differ('a text', namesShown(), 'dropped'));
  at('undo').click();
  return [...found, ...differ('undone', namesShown().includes('third'), true)];
}

async function openFile(name, content) {
  at('file').files = transferOf({ [name]: content }).files;
  at('file').dispatchEvent(new frame.contentWindow.Event('change'));
  await until(() => at('file').files.length === 0);
  return differ('asks for it again', at('file').files.length, 0);
}

// The same file is opened twice, and asks for it each time.
export async function openedTwice({ records: [{ board }] }) {
  await load();
  const found = await openFile('mine.txt', `@ freecell mine\n${board}`);
  found.push(...differ('once', namesShown(), 'mine'));
  paste('');
  await openFile('mine.txt', `@ freecell mine\n${board}`);
  return [...found, ...differ('twice', namesShown(), 'mine')];
}

// Lines of a file end as they did, also after one of them is changed; and what is at fault there is found.
export async function lineEnds({ records: [{ board }] }) {
  await load();
  const text = `# é\n@ freecell mine\n${board}@ freecell bad\nKC 1 2\n`;
  await openFile('mine.txt', text.replaceAll('\n', '\r\n'));
  const latin = (it) => String.fromCharCode(...new TextEncoder().encode(it));
  const bytesKept = async () => {
    await later(100);
    return String.fromCharCode(...(await works()).at(-1).state.bytes);
  };
  const found = differ('as it was', await bytesKept(), latin(text.replaceAll('\n', '\r\n')));
  all('#faults button')[0].click();
  const { value, selectionStart, selectionEnd } = at('text');
  found.push(...differ('selected', value.slice(selectionStart, selectionEnd), '1'));
  const changed = text.replace('# é\n', '# é\n# new\n');
  type(changed);
  found.push(...differ('changed', await bytesKept(), latin(changed.replaceAll('\n', '\r\n'))));
  const mixed = `# caf\xe9\n@ freecell mine\r\n${board}`;
  await openFile('mixed.txt', Uint8Array.from(mixed, (it) => it.charCodeAt(0)));
  type(`${at('text').value}# last\n`);
  type(`# first\n${at('text').value}`);
  return [...found, ...differ('untouched', await bytesKept(), `# first\n${mixed}# last\n`)];
}

// A link holds the shuffle, two swapped cards, the list and the place in it.
export async function linkHolds({ example }) {
  await load();
  paste(example);
  choose('deal-1');
  const seen = () => [drawn('left'), drawn('right'), at('count').textContent, at('move').textContent];
  const linkedTo = async () => {
    at('link').click();
    const before = seen();
    const { hash } = new URL(at('link-text').value);
    await load(hash);
    return [...differing('seen', seen(), before), ...differ('short', hash.length < 3_000, true)];
  };
  at('shuffle').click();
  set('step', 7, 'input');
  const found = await linkedTo();
  at('swap').click();
  return [...found, ...await linkedTo()];
}

// A link that would be too long says so.
export function linkTooLong({ records: [{ board }] }) {
  paste(`@ freecell long\n${board}>${' 1a'.repeat(4_000)}\n`);
  at('link').click();
  return [...differ('said', at('link-said').textContent.startsWith('This is too long for a link'), true),
    ...differ('hidden', at('link-text').hidden, true)];
}

// A note leaves the place in a list as it is; another board under the same name begins at its own beginning.
export function placeKept({ records: [{ board }, { board: other }] }) {
  const text = `@ freecell same\n${board}> 1a 2b 3c\n`;
  paste(text);
  at('on').click();
  at('on').click();
  type(`# a note\n${text}`);
  const found = differ('after a note', at('count').textContent, '2 of 3');
  type(`@ freecell same\n${other}> 1a 2b 3c\n`);
  return [...found, ...differ('after another board', at('count').textContent, '0 of 3'),
    ...differ('it', drawn('left'), asDrawn(other))];
}
