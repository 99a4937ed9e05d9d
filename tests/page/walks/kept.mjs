// Ways in which work could be lost, and is not.

import {
  all, at, choose, comeBack, differ, frame, later, load, opened, paste, press, printedBy, reload, set, until, works,
} from './frame.mjs';
const NOTE = '# my note\n';
const hasNote = () => at('text').value.startsWith(NOTE);
const isKept = () => until(() => at('kept').textContent === 'This browser keeps your work.');

// A note is typed over the text that is there.
async function note() {
  set('text', NOTE + at('text').value, 'input');
  await isKept();
  await later(100);
}

// A link that is opened takes the place of no work: that is laid aside, and brought back by a button. The link is gone
// from the address, so that the work that follows is not lost by a reload.
export async function linkedOver() {
  await load();
  await note();
  await comeBack('#deal=5');
  const found = [...differ('the link', at('boards-title').textContent, 'deal-5, FreeCell'),
    ...differ('its address', frame.contentWindow.location.hash, ''), ...differ('the note', hasNote(), false)];
  await note();
  await reload();
  found.push(...differ('the later work', hasNote(), true), ...differ('earlier', at('earlier').options.length, 1));
  at('bring').click();
  await until(() => at('text').value.includes('twelve-cards'));
  found.push(...differ('brought back', hasNote(), true), ...differ('both', at('earlier').options.length, 2));
  frame.contentWindow.location.hash = 'deal=6';
  await until(() => at('earlier').options.length === 3);
  return [...found, ...differ('in the same tab', at('earlier').options.length, 3)];
}

// Of earlier works five are kept.
export async function earlierWorks() {
  await load();
  for (const deal of [1, 2, 3, 4, 5, 6, 7, 8]) {
    await comeBack(`#deal=${deal}`);
    await later(100);
  }
  await comeBack();
  const names = [...at('earlier').options].map((option) => option.textContent.split('deal-')[1]);
  return [...differ('shown', at('text').value.split('\n')[0], '@ freecell deal-8'),
    ...differ('earlier', names.join(), '8,7,6,5,4')];
}

// Two tabs have each a work of its own.
export async function twoTabs() {
  await load();
  const other = frame.cloneNode();
  frame.after(other);
  await opened(other);
  await note();
  other.contentDocument.getElementById('shuffle').click();
  await later(200);
  await reload();
  const found = [...differ('the note', hasNote(), true), ...differ('works', (await works()).length, 2)];
  other.remove();
  return found;
}

// A text above 2 MB is kept. Where nothing can be kept that is said, and the browser asks before the page is left.
export async function keptOrAsked({ example }) {
  const asks = () => !frame.contentWindow.dispatchEvent(new Event('beforeunload', { cancelable: true }));
  await load();
  const given = new frame.contentWindow.DataTransfer();
  given.items.add(new frame.contentWindow.File([example.repeat(2_300_000 / example.length)], 'large'));
  at('file').files = given.files;
  at('file').dispatchEvent(new frame.contentWindow.Event('change'));
  await until(() => at('kept').textContent === 'This browser keeps your work.');
  const { textContent: said } = at('text-said');
  const found = [...differ('asks', asks(), false)];
  await reload();
  await until(() => at('text-said').textContent === said);
  found.push(...differ('above 2 MB', at('text-said').textContent, said));
  await load();
  frame.contentWindow.IDBObjectStore.prototype.put = () => { throw new Error('no room'); };
  at('shuffle').click();
  await later(200);
  return [...found, ...differ('asks where nothing is kept', asks(), true),
    ...differ('said', at('kept').textContent, 'This browser does not keep your work: save it.')];
}

// What is undone in a field of one line is that field's.
export async function undoneInFields({ example }) {
  paste(example);
  paste(NOTE + example);
  for (const id of ['find', 'deal', 'link-text']) {
    const { KeyboardEvent } = frame.contentWindow;
    at(id).dispatchEvent(new KeyboardEvent('keydown', { key: 'z', ctrlKey: true, bubbles: true, cancelable: true }));
  }
  const found = differ('the note', hasNote(), true);
  press('z', { ctrlKey: true });
  return [...found, ...differ('undone elsewhere', at('text').value, example)];
}

// All of it is copied: what is printed, however little of it is shown, this board, this list, and the carried one.
export async function copied({ example, carried: { from, to, line }, records }) {
  const { board } = records.find(({ name }) => name === from);
  let taken = '';
  const clipboard = { writeText: async (text) => { taken = text; } };
  Object.defineProperty(frame.contentWindow.navigator, 'clipboard', { value: clipboard, configurable: true });
  const copyBy = async (id) => {
    at(id).click();
    await later(20);
    return taken;
  };
  paste(example);
  choose(from);
  const list = example.split(`@ freecell ${from}\n`)[1].split('\n').find((it) => it[0] === '>');
  const found = [...differ('a board', await copyBy('copy-board'), `@ freecell ${from}\n${board}`),
    ...differ('a list', await copyBy('copy-list'), `${list}\n`)];
  const option = [...at('member').options].find((it) => it.textContent === to);
  set('member', option.value, 'change');
  found.push(...differ('a carried list', await copyBy('copy-carried'), `${line}\n`));
  const times = Math.floor(250_000 / example.length);
  paste(example.repeat(times));
  const printed = printedBy('show');
  await copyBy('copy');
  found.push(...differ('shown in part', printed.length < taken.length, true));
  return [...found, ...differ('records', taken.match(/^@/gm).length, times * records.length)];
}

// Where no board is read the page claims nothing of one.
export function claims({ example }) {
  paste('');
  const said = () => all('header h1, header .lead').filter((it) => it.offsetParent).map((it) => it.textContent).join();
  const found = differ('of no board', said(), 'Which boards are the same puzzle?');
  paste(example);
  choose('deal-1');
  const isClaimed = () => /^These two boards are the same puzzle\..* canonical board.* proved/s.test(said());
  found.push(...differ('of two', isClaimed(), true));
  at('swap').click();
  found.push(...differ('swapped', said().startsWith('Two cards swapped: another puzzle.'), true));
  at('swap').click();
  return [...found, ...differ('swapped back', isClaimed(), true)];
}
