// The collection: the records of the text, what the program says of each, and what it prints of one, taken apart. They
// are read again where the text changes: a small one at once, a large one while the page goes on.
//
// They are in columns: where each begins, its group (-1 where it is refused), and its name. Beside them are the groups'
// members, the faults of the refused ones, and the records that were looked at, by their places.

import { GAMES } from '../bindings/javascript/calls.js';
import { at } from './elements.mjs';
import { fcanon, listLine } from './library.mjs';
import { asText, bytesOf, countLines, LINE_FEED, restOfLine } from './lines.mjs';
import { later, workAt } from './work.mjs';

const noRecords = { starts: new Uint32Array(), groups: new Int32Array(), names: [], faults: [] };

function membersOf({ groups }) {
  const members = [];
  groups.forEach((group, place) => { if (group >= 0) (members[group] ??= []).push(place); });
  return members;
}

export const LARGE = 300_000; // bytes that are not read at once, and not put in the text field

const emptied = (bytes, game) =>
  ({ bytes, game, ...noRecords, members: [], made: new Map(), fault: null, reading: null });

/** @type {any} */
export let collection = emptied(new Uint8Array(), 0);

export const isLarge = () => collection.bytes.length > LARGE;

// Reads the bytes, where they are others. Gives true once they are read: at once, or a promise of it where that takes
// long, which gives false where another reading has begun. There is no record meanwhile.
/** @returns {true | Promise<boolean>} */
export function read(bytes, game) {
  if (collection.bytes === bytes && collection.game === game) return collection.reading ?? true;
  const begun = collection = emptied(bytes, game);
  const work = { work: 'read', bytes, game };
  if (!isLarge()) return finish(workAt(work));
  at('progress').hidden = false;
  return begun.reading = later(work).then((said) => begun === collection && finish(said));
}

// Takes what is said of the text, or keeps what the program says where it gives up.
/** @returns {true} */
function finish({ value = null, fault = null }) {
  const records = value ?? noRecords;
  Object.assign(collection, records, { members: membersOf(records), fault, reading: null });
  at('progress').hidden = true;
  return true;
}

function linesOf(command, game, bytes) {
  const { value } = workAt({ work: 'print', command, bytes, game });
  return asText.decode(value.text).split('\n').slice(0, -1);
}

// What `check` says of the lists of a record, after its name and their numbers.
const verdictsIn = (game, bytes) => linesOf('check', game, bytes).map((line) => line.split(' ').slice(2).join(' '));

export function carriedTo({ game, board, passage }, { image }) {
  const list = fcanon.carry(game, fcanon.inverse(game, passage), image);
  const [verdict] = verdictsIn(game, bytesOf(fcanon.write(game, board) + listLine(list)));
  return { ...list, image, verdict };
}

// An accepted record: its name and where it is, and what the program and the library say of it.
export function recordAt(place) {
  const { starts, bytes, game, made, names } = collection;
  const span = { start: starts[place], end: starts[place + 1] ?? bytes.length };
  const record = made.get(place) ?? whole(game, bytes.subarray(span.start, span.end));
  made.set(place, record);
  return Object.assign(record, { number: place + 1, name: names[place], span });
}

// All that is seen in what these print of a record; one without a header is of the game that is given.
function whole(givenGame, bytes) {
  const [lines, verdicts] = [linesOf('show', givenGame, bytes), verdictsIn(givenGame, bytes)];
  const game = lines[0][0] === '@' ? GAMES.indexOf(lines.shift().split(' ')[1]) : givenGame;
  const isList = (line) => line[0] === '>';
  const board = fcanon.read(game, bytesOf(lines.filter((line) => !isList(line)).join('\n')));
  const { canonical, passage } = fcanon.canon(game, board);
  const lists = lines.filter(isList).map((line, place) => {
    const [sign, ...moves] = line.split(' ');
    const list = { sign, moves };
    return { ...list, image: fcanon.carry(game, passage, list), verdict: verdicts[place] };
  });
  return { game, board, canonical, passage, lists };
}

// The line and the column of a fault, from 1, and the word that is there; of a stray line all of it.
export function wordAt(bytes, { place, reason }) {
  const line = countLines(bytes.subarray(0, place)) + 1;
  const start = bytes.subarray(0, place).lastIndexOf(LINE_FEED) + 1;
  const column = [...asText.decode(bytes.subarray(start, place))].length + 1;
  const rest = restOfLine(bytes, place);
  return { line, column, word: (reason === 'stray line' ? rest : /^[^ \t\r]*/.exec(rest)[0]).trimEnd() };
}
