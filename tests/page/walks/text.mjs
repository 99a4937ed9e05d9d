// The text, its records and their groups, and links.

import { all, at, choose, differ, frame, later, load, paste, press, printedBy, set, until } from './frame.mjs';
import { asDrawn, drawn } from './drawn.mjs';

const MOST_PRINTED = 100_000; // so much of what is printed is shown

export function collections({ cases }) {
  return cases.flatMap(({ game, text, printed, faults }) => {
    paste(text, game);
    const shown = all('#faults li').slice(0, 20).map((line) => line.firstChild.textContent.trim());
    return [...differ(text.slice(0, 100), shown.join('\n'), faults.join('\n')),
      ...Object.entries(printed).flatMap(([command, wanted]) => [
        ...differ(command, printedBy(command), wanted.slice(0, MOST_PRINTED)),
        ...differ('is shown whole', !at('copied').textContent.startsWith('The beginning'), wanted.length <= MOST_PRINTED),
      ])];
  });
}

export function faults({ refused }) {
  return refused.flatMap(({ text, said, word }) => {
    paste(text);
    const [line] = all('#faults li');
    if (!line) return [`${said} is not shown`];
    line.querySelector('button').click();
    const { value, selectionStart, selectionEnd } = at('text');
    return [...differ('fault', line.firstChild.textContent.trim(), said),
      ...differ('selected', value.slice(selectionStart, selectionEnd), word)];
  });
}

// One board under 300 names: a part of a name finds its records, also those that are not listed at first, and Enter
// shows the first. Few records are not looked through.
export function searched() {
  const board = 'Found: H-K C-K D-K S-K\n';
  const { InputEvent } = frame.contentWindow;
  const look = (part) => {
    at('find').value = part;
    at('find').dispatchEvent(new InputEvent('input', { bubbles: true }));
    const listed = all('#groups button').map((button) => button.textContent);
    return `${listed.slice(0, 3)} ${listed.length} ${at('find-said').textContent}`;
  };
  paste(Array.from({ length: 300 }, (_, number) => `@ freecell Game-${number}\n${board}`).join(''));
  const found = [...differ('found', look('game-29'), 'Game-29,Game-290,Game-291 11 11 found'),
    ...differ('nothing found', look('x'), ' 0 0 found'), ...differ('all', look(' '), 'Game-0,Game-1,Game-2 100 ')];
  look('E-29');
  at('find-row').requestSubmit();
  found.push(...differ('shown', all('#groups [aria-pressed=true]')[0]?.textContent, 'Game-29'));
  paste(`@ freecell one\n${board}`);
  return [...found, ...differ('of one record', `${at('find-row').hidden} ${at('find').value}`, 'true ')];
}

// Names are text and no more.
export function names() {
  const name = '<img/src=x/onerror=parent.harm=1><b>&amp;';
  const board = 'Found: H-K C-K D-K S-K\n';
  paste(`@ freecell ${name}\n${board}>\n@ freecell other\n${board}@ freecell ${name}\nKC\n`);
  const shown = [at('boards-title'), at('groups').querySelector('button'), at('faults').querySelector('li')];
  const found = shown.flatMap((it) => differ('name', it.textContent.includes(name), true));
  choose('other');
  const made = all('main img, main b').length + all('option').filter((it) => it.children.length > 0).length;
  return [...found, ...differ('elements of a name', made, 0), ...differ('harm', window.harm, undefined)];
}

// Boards that are kept have names of their own, and the last one is in sight in the list.
export async function kept({ example, records: [{ name }] }) {
  paste(example);
  choose(name);
  for (let turn = 0; turn < 20; turn++) {
    at('shuffle').click();
    at('keep').click();
  }
  const wanted = Array.from({ length: 20 }, (_, place) => `${name}-shuffled-${place + 1}`);
  const names = all('#groups button').map((button) => button.textContent).filter((it) => it.includes('shuffled'));
  const found = differ('names', names.join(), wanted.join());
  const [list, chosen] = ['#groups', '#groups [aria-pressed=true]'].map((it) => all(it)[0].getBoundingClientRect());
  return [...found, ...differ('in sight', chosen.top >= list.top && chosen.bottom <= list.bottom, true)];
}

// A deal is added to the text, with the solution that is known, or with what is proved of one that has none.
export function dealt({ deals }) {
  paste('# mine\n');
  return deals.flatMap(({ game, number, board, known }) => {
    set('game', game, 'change');
    const before = at('text').value;
    at('deal').value = number;
    at('deal-form').querySelector('button').click();
    if (board === '') return differ(`deal ${number}`, at('deal-said').textContent !== '', true);
    const [, classes] = /^unsolvable (\d+)/.exec(known) ?? [];
    const list = known && !classes ? `>> ${known}\n` : '';
    const isKept = at('text').value.startsWith(before) && at('text').value.endsWith(board + list);
    const said = at('deal-said').textContent;
    const isSaid = classes ? said.includes(`play reaches ${Number(classes).toLocaleString('en')} classes`) : said === '';
    const wins = list ? `1: wins in ${known.split(' ').length} moves` : undefined;
    return [...differ('kept', isKept, true), ...differ(`deal ${number}`, drawn('left'), asDrawn(board)),
      ...differ('said', isSaid, true), ...differ('solved', at('list').selectedOptions[0]?.textContent, wins)];
  });
}

export function shared({ example, carried: { from, to, line, verdict } }) {
  paste(example);
  choose(from);
  const option = [...at('member').options].find((it) => it.textContent === to);
  set('member', option.value, 'change');
  const found = differ('carried', at('carried').textContent, `${line}\n# ${to}: ${verdict}`);
  at('carry').click();
  at('last').click();
  const title = at('boards-title').textContent.split(',')[0];
  const isWon = at('move').textContent.includes('All cards are home on both boards.');
  return [...found, ...differ('title', title, to), ...differ('won', isWon, true)];
}

export async function linked({ example, lists }) {
  const { name, place } = lists[lists.length - 1];
  paste(example);
  choose(name);
  set('list', place, 'change');
  at('on').click();
  at('link').click();
  const words = () => ['boards-title', 'move', 'count'].map((id) => at(id).textContent);
  const described = () => [...words(), drawn('left')].join('\n');
  const before = described();
  const { hash } = new URL(at('link-text').value);
  await load(hash);
  return differ('what the link shows', described(), before);
}

export async function linkedDeals({ deals: [{ number, board }] }) {
  await load(`#deal=${number}&list=%3E+1a&step=1`);
  const found = differ('step', at('count').textContent, '1 of 1');
  found.push(...differ('text', at('text').value.includes(board), true));
  at('link').click();
  const { hash } = new URL(at('link-text').value);
  found.push(...differ('link', hash, `#deal=${number}&list=%3E+1a&step=1`));
  paste(`@ freecell deal-${number + 1}\n${board}`);
  at('link').click();
  await load(new URL(at('link-text').value).hash);
  return [...found, ...differ('another deal', drawn('left'), asDrawn(board))];
}

// Opens a large file, and gives what is wrong of what is said, counted and put in the field.
async function openLarge({ example, records, large: { times, count } }) {
  const given = new frame.contentWindow.DataTransfer();
  given.items.add(new frame.contentWindow.File([example.repeat(times)], 'large'));
  at('file').files = given.files;
  at('file').dispatchEvent(new frame.contentWindow.Event('change'));
  const wanted = `${(times * (records.length + 1)).toLocaleString('en')} read, ${times} refused.`;
  await until(() => at('said').textContent === wanted);
  printedBy('count');
  await until(() => at('printed').textContent !== '');
  return [...differ('said', at('said').textContent, wanted), ...differ('counted', at('printed').textContent, count),
    ...differ('field', at('text').readOnly && at('text').value.length < 10_000, true)];
}

// Lists what the page has its workers do, and that each is made; or lets it make none.
function watchWorkers(canBeMade) {
  const { Worker } = frame.contentWindow;
  const done = [];
  frame.contentWindow.Worker = class extends Worker {
    constructor(...given) {
      if (!canBeMade) throw new Error('no worker is made here');
      super(...given);
      done.push('made');
    }

    postMessage(message) {
      if (message.work) done.push(message.work);
      super.postMessage(message);
    }
  };
  return done;
}

// A deal that is added to a large text is shown once all is read, and after undo the record that was shown before.
async function placeInLarge() {
  const isRead = () => at('progress').hidden;
  const shown = () => `${at('boards-title').textContent} ${all('#groups [aria-pressed=true]')[0]?.value}`;
  all('#groups button').at(-1).click();
  const before = shown();
  at('deal').value = 9_999;
  at('deal-form').requestSubmit();
  await until(isRead);
  const found = differ('the deal', shown().split(',')[0], 'deal-9999');
  press('z', { ctrlKey: true });
  await until(isRead);
  return [...found, ...differ('the record again', shown(), before)];
}

// A large file is read and printed in one worker, or on the page's own thread where none can be made, and is not put in
// the field; a text past the limits is not read.
export async function large(given) {
  await load();
  watchWorkers(false);
  const found = await openLarge(given);
  await load();
  const done = watchWorkers(true);
  found.push(...await openLarge(given), ...differ('by a worker', done.join(), 'made,read,print'));
  found.push(...await placeInLarge());
  paste('#'.repeat(65_537));
  const isShown = !at('shown').hidden || at('groups').querySelector('button') !== null;
  return [...found, ...differ('past the limit', `${at('said').textContent} ${isShown}`, 'input too large false')];
}

// What a reader pastes into the empty field.
function pasteAsReader(text) {
  at('text').value = text;
  const { InputEvent } = frame.contentWindow;
  at('text').dispatchEvent(new InputEvent('input', { bubbles: true, inputType: 'insertFromPaste' }));
}

const notesShown = () => (at('imported').offsetParent ? all('#notes li').map((note) => note.textContent).join('\n') : '');

// What is pasted as it is on the web becomes what `import` makes of it, in silence too, and stays where it makes nothing.
export async function pasted({ imports: { pastes } }) {
  const found = [];
  await load();
  for (const { given, text, notes } of pastes) {
    paste('');
    pasteAsReader(given);
    for (let turn = 0; turn < 50 && at('text').value !== text; turn++) await later(10);
    found.push(...differ(given.slice(0, 60), at('text').value.slice(0, 300), text.slice(0, 300)));
    if (notes) found.push(...differ(`notes on ${given.slice(0, 40)}`, notesShown(), notes.join('\n')));
    if (notes) found.push(...differ('is said', at('imported-said').textContent.startsWith('Imported: '), true));
  }
  return found;
}

// Rows that are pasted become what `import` makes of them, with its notes; a question is answered by a button; what is
// read as it is stays as it is, until it is asked for.
export async function imported({ example, imports: { rows, square } }) {
  await load();
  pasteAsReader(rows.given);
  await until(() => at('text').value === rows.text);
  const found = [...differ('rows', at('text').value, rows.text), ...differ('notes', notesShown(), rows.notes.join('\n')),
    ...differ('asks nothing', at('ask').hidden, true)];
  at('undo').click();
  found.push(...differ('undone', at('text').value, rows.given), ...differ('without notes', notesShown(), ''));
  for (const name of ['columns', 'rows']) {
    pasteAsReader(square.given);
    await until(() => !at('ask').hidden);
    found.push(...differ('as it was', at('text').value, square.given),
      ...differ('question', notesShown(), square.notes.join('\n')));
    at(`as-${name}`).click();
    await until(() => at('text').value === square[name].text);
    found.push(...differ(name, at('text').value, square[name].text),
      ...differ('notes', notesShown(), square[name].notes.join('\n')), ...differ('asks no more', at('ask').hidden, true));
  }
  pasteAsReader(example);
  await later(100);
  found.push(...differ('a collection', at('text').value, example), ...differ('no notes', notesShown(), ''));
  at('import').click();
  await until(() => notesShown() !== '');
  found.push(...differ('asked for', at('text').value === example, false));
  at('more').click();
  return [...found, ...differ('no notes of another text', notesShown(), '')];
}
