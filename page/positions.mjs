// The reader's positions: the text field, refused records, groups, and files.

import { append, carryTo, choose, replace, type } from './actions.mjs';
import { carriedTo, collection, isLarge, LARGE, recordAt, wordAt } from './collection.mjs';
import { at, copy, element, fill, isNew, write } from './elements.mjs';
import { fcanon, headerLine, listLine, TITLES } from './library.mjs';
import { afterField, asText, bytesOf, fieldText, headersIn, joined, linesIn, spliceOf } from './lines.mjs';
import { drawPrinted, importAsNeeded } from './program.mjs';
import { shown } from './shown.mjs';
import { store } from './store.mjs';
import { checkingCommands, counted, inFigures, unsolvableWords } from './words.mjs';

const MOST_SHOWN = { faults: 20, groups: 200, members: 100 };
const LEAST_SEARCHED = 12; // records, among which one looks for a name

export function drawCollection() {
  const { starts: { length }, faults, fault } = collection;
  const refused = faults.length > 0 ? `, ${faults.length} refused` : '';
  const said = length > 0 ? `${inFigures(length)} read${refused}.` : 'Paste a position, open a file, or deal a number.';
  write('said', fault ?? said, fault !== null);
  drawFaults();
  write('groups-title', counted(collection.members.length, 'different position'));
  at('find-row').hidden = length < LEAST_SEARCHED;
  if (at('find-row').hidden) at('find').value = '';
  drawFound();
  drawPrinted();
}

// Puts the text in its field, or only the record that is shown where the text is too large for one. A change that is
// not the reader's own is where the caret then is.
export function drawText() {
  const { bytes } = collection;
  if (!isNew('text', bytes, isLarge() && shown?.base)) return;
  const span = shown?.base.span ?? { start: 0, end: 0 };
  const text = fieldText(isLarge() ? bytes.subarray(span.start, span.end) : bytes);
  const field = at('text');
  field.readOnly = isLarge();
  at('text-said').hidden = !isLarge();
  write('text-said', `The collection has ${inFigures(bytes.length)} bytes; here is the shown record.`);
  if (field.value === text) return;
  const { from, taken, put } = spliceOf(field.value, text);
  field.setRangeText(put, from, from + taken.length, 'end');
}

function come(what, bytes) {
  replace(what, bytes);
  importAsNeeded();
}

export function typeText({ inputType = '' }) {
  type(afterField(store.state.bytes, at('text').value));
  if (/^insertFrom(Paste|Drop)$/.test(inputType)) importAsNeeded();
}

// A large text that is pasted does not go through the field.
export function paste(event) {
  const text = event.clipboardData?.getData('text') ?? '';
  if (text.length <= LARGE) return;
  event.preventDefault();
  come('the paste', bytesOf(text));
}

const knownDeals = new Map(); // what is known of deals of FreeCell, by their numbers: moves that win, or that none do

export function knowDeals(bytes) {
  for (const [, number, known] of asText.decode(bytes).matchAll(/^(\d+) (.*)$/gm)) knownDeals.set(Number(number), known);
}

export function deal(event) {
  event.preventDefault();
  const game = Number(at('game').value);
  const number = Number(at('deal').value.replace(/[#,\s]/g, ''));
  const board = fcanon.deal(game, number);
  if (!board) return write('deal-said', `${TITLES[game]} has no deal with this number.`, true);
  const known = game === 0 ? knownDeals.get(number) ?? '' : '';
  const [, classes] = /^unsolvable (\d+)/.exec(known) ?? [];
  write('deal-said', classes ? unsolvableWords(number, Number(classes)) : '');
  write('deal-check', classes ? checkingCommands(number) : '');
  at('deal-check').hidden = !classes;
  append(`deal ${number}`, { game, name: `deal-${number}` }, board, known && !classes ? [`>> ${known}\n`] : []);
}

const contentOf = async (file) => new Uint8Array(await file.arrayBuffer());

// The bytes of a file such that they can follow others: where it has no header at first, one named as the file is.
async function following(file, place) {
  const bytes = await contentOf(file);
  const isHeaded = place === 0 || linesIn(bytes.subarray(0, headersIn(bytes)[0])).length === 0;
  const name = file.name.replace(/\.[^.]*$/, '').replace(/[^!-~]/g, '-').slice(0, 64) || 'file';
  const header = isHeaded ? '' : headerLine({ game: store.state.game, name });
  return joined(bytesOf(header), bytes, bytesOf(bytes.at(-1) === 10 ? '' : '\n'));
}

// Opens all files together, one after another, as one collection. The same file can be opened again.
export async function openFiles(files) {
  const [file, ...others] = files;
  if (!file) return;
  if (others.length === 0) come(`opening ${file.name}`, await contentOf(file));
  else come(`opening ${files.length} files`, joined(...await Promise.all([file, ...others].map(following))));
  at('file').value = '';
}

export function openDropped(event) {
  const { files } = event.dataTransfer;
  const text = event.dataTransfer.getData('text/plain');
  if (files.length === 0 && (text === '' || event.target === at('text'))) return;
  event.preventDefault();
  if (files.length > 0) openFiles(files);
  else come('the drop', bytesOf(text));
}

function drawFaults() {
  const { faults, bytes } = collection;
  const items = faults.slice(0, MOST_SHOWN.faults).map(({ at: record, place, reason }) => {
    const { line, column, word } = wordAt(bytes, { place, reason });
    const parts = [collection.names[record], `line ${line}, column ${column}`, reason, word.slice(0, 80)];
    const said = `${parts.filter((part) => part !== '').join(': ')} `;
    const button = element('button', { type: 'button', onclick: () => select(place, word) }, 'Go there');
    return element('li', {}, said, isLarge() ? '' : button);
  });
  fillList('faults', items, faults.length);
}

const moreThan = (drawn, count) => (count > drawn ? `and ${inFigures(count - drawn)} more` : '');

function fillList(id, items, count) {
  const more = moreThan(items.length, count);
  at(id).replaceChildren(...items, ...more ? [element('li', {}, more)] : []);
}

function select(place, word) {
  const start = fieldText(collection.bytes.subarray(0, place)).length;
  at('text').focus();
  at('text').setSelectionRange(start, start + word.length);
}

let groupsFound = []; // of each group that has some the places of the records that are looked for

function groupElement(places) {
  const { length } = collection.members[collection.groups[places[0]]];
  const buttons = places.slice(0, MOST_SHOWN.members).map((place) => element('button', {
    type: 'button', value: place + 1, ariaPressed: place + 1 === shown?.base.number, onclick: () => chooseAt(place),
  }, collection.names[place]));
  if (length === 1) return element('li', {}, ...buttons);
  const said = element('span', { className: 'soft' }, `${inFigures(length)} are one:`);
  return element('li', { className: 'several' }, said, ...buttons, moreThan(buttons.length, places.length));
}

const chooseAt = (place) => choose({ number: place + 1, name: collection.names[place] });

export function drawFound() {
  const { members, names } = collection;
  const part = at('find').value.trim().toLowerCase();
  const isFound = (place) => names[place].toLowerCase().includes(part);
  groupsFound = part === '' ? members : members.map((places) => places.filter(isFound)).filter(({ length }) => length > 0);
  write('find-said', part === '' ? '' : `${inFigures(groupsFound.flat().length)} found`);
  fillList('groups', groupsFound.slice(0, MOST_SHOWN.groups).map(groupElement), groupsFound.length);
}

export function chooseFound(event) {
  event.preventDefault();
  if (groupsFound.length > 0) chooseAt(groupsFound[0][0]);
}

export function drawChosen() {
  for (const button of at('groups').querySelectorAll('button')) {
    const isShown = Number(button.value) === shown?.base.number;
    if (isShown && button.ariaPressed !== 'true') bringInSight(button);
    button.ariaPressed = isShown;
  }
}

function bringInSight(button) {
  const [one, all] = [button, at('groups')].map((it) => it.getBoundingClientRect());
  at('groups').scrollTop += Math.max(0, Math.ceil(one.bottom - all.bottom)) + Math.min(0, Math.floor(one.top - all.top));
}

export function drawShare() {
  const { base, lists, chosen, exchange } = shown;
  const own = base.number - 1;
  const others = collection.members[collection.groups[own]].filter((place) => place !== own).slice(0, MOST_SHOWN.members);
  at('share').hidden = others.length === 0 || lists.length === 0 || exchange !== null;
  if (at('share').hidden || !isNew('share', base, lists[chosen])) return;
  fill('member', 'option', others.map((place) => collection.names[place]), others);
  drawCarried();
}

const carriedList = () => carriedTo(chosenMember(), shown.lists[shown.chosen]);
const chosenMember = () => recordAt(Number(at('member').value));

export function drawCarried() {
  const list = carriedList();
  write('carried', `${listLine(list)}# ${chosenMember().name}: ${list.verdict}`);
}

export const showCarried = () => carryTo(chosenMember());

// What is copied: the left board as it is, the list on it, and the list on the other record.
const COPIED = {
  board: ({ record, sides: { left } }) => headerLine(record) + fcanon.write(record.game, left.board),
  list: ({ record, lists, chosen, shuffle }) => listLine(fcanon.carry(record.game, shuffle, lists[chosen])),
  carried: () => listLine(carriedList()),
};
export const copyThis = (what) => () => copy('copied-this', COPIED[what](shown));
