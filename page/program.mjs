// What the program does with the text, by its proved runs: what it prints under each command, and what it makes of
// rows, drawings and solutions that keepers have, as `import` reads them. What it says of these is beside the field.

import { replace } from './actions.mjs';
import { collection, isLarge } from './collection.mjs';
import { at, copy, download, fill, say, write } from './elements.mjs';
import { asText, AT_SIGN } from './lines.mjs';
import { amend, store } from './store.mjs';
import { later, workAt } from './work.mjs';

const MOST_PRINTED = 100_000;
const MOST_NOTES = 100;
const QUESTION = /may be columns or rows($|:)/; // in a note that asks
const ANSWERS = ', with --columns or --rows'; // how the program is answered

let printed = { command: '', text: new Uint8Array() }; // of a collection

// Prints anew where the text or the command is another one, and this is seen.
export function drawPrinted() {
  const [of, command] = [collection, at('command').value];
  if (!at('program').open || of.reading || (printed.of === of && printed.command === command)) return;
  const asked = printed = { of, command, text: new Uint8Array(), ready: null };
  const work = { work: 'print', command, bytes: of.bytes, game: of.game };
  if (!isLarge()) return takePrinted(asked, workAt(work));
  write('printed', '');
  write('copied', 'Printing ..');
  asked.ready = later(work).then((done) => takePrinted(asked, done));
}

function takePrinted(asked, { value = null, fault = '' }) {
  if (printed !== asked) return;
  asked.text = value?.text ?? asked.text;
  const isCut = asked.text.length > MOST_PRINTED;
  write('printed', asText.decode(asked.text.subarray(0, MOST_PRINTED)));
  write('copied', isCut ? 'The beginning is shown; save it to have all.' : fault);
}

// Copies all that is printed, also where only the beginning of it is shown.
export async function copyPrinted() {
  await printed.ready;
  copy('copied', asText.decode(printed.text));
}

export async function savePrinted() {
  await printed.ready;
  download([printed.text], `${printed.command.replace(' --', '-')}.txt`);
  write('copied', 'Saved.');
}

// Imports these bytes, where that was asked for, more records are then accepted, or something is said of none or one; a
// question is answered by `lines`.
async function importBytes(bytes, what, { isAsked = true, lines = undefined } = {}) {
  const before = store.state;
  const work = { work: 'import', bytes, game: before.game, lines };
  const { value, fault } = isLarge() ? await later(work) : workAt(work);
  if (fault) return say(fault, true);
  const { starts, faults } = collection;
  const accepted = starts.length - faults.length;
  const isBetter = value.records - value.refused > accepted;
  const isHeard = value.said.length > 0 && (accepted === 0 || starts.length === 1);
  if (store.state !== before || !(isAsked || isBetter || isHeard)) return;
  const imported = { bytes, said: asText.decode(value.said), isMade: value.text.length > 0 };
  if (imported.isMade) replace(what, value.text, imported);
  else amend({ imported });
}

export const importText = () => importBytes(store.state.bytes, 'the import');

export const answerAs = (lines) => () => importBytes(store.state.imported.bytes, `the answer ${lines}`, { lines });

// Imports at once what came from elsewhere, where a record of it is refused, or where it is one board without a header,
// whose lines may be rows.
export async function importAsNeeded() {
  await store.read;
  const { bytes, starts, faults } = collection;
  const isBare = starts.length === 1 && bytes[starts[0]] !== AT_SIGN;
  const isNeeded = starts.length > 0 && (isBare || faults.length > 0);
  if (isNeeded && !isLarge()) importBytes(store.state.bytes, 'the import', { isAsked: false });
}

// A note of the program in the words of the page, which has buttons in the place of options.
const noteOf = (note) => note.replace(/^fcanon: /, '').replace(ANSWERS, ', by a button');

export function drawImported() {
  const { imported } = store.state;
  const notes = imported?.said.split('\n').slice(0, -1).map(noteOf) ?? [];
  at('imported').hidden = !imported;
  at('ask').hidden = !notes.some((note) => QUESTION.test(note));
  fill('notes', 'li', notes.length > MOST_NOTES ? [...notes.slice(0, MOST_NOTES), '..', notes.at(-1)] : notes);
  const made = imported?.isMade ? 'Imported: undo brings back what came.' : 'Import makes nothing of this.';
  write('imported-said', notes.length > 0 ? `${made} It says:` : made);
}
