// Bytes of a text: its lines and words, changes of it, and where the text field has them.

const CARRIAGE_RETURN = 13;
export const [LINE_FEED, GREATER, AT_SIGN] = [10, 62, 64];

// A mark of the order of bytes is a character like others: what is dropped has no place.
export const asText = new TextDecoder('utf-8', { ignoreBOM: true });
export const bytesOf = (text) => new TextEncoder().encode(text);

export function restOfLine(bytes, place) {
  const end = bytes.indexOf(LINE_FEED, place);
  return asText.decode(bytes.subarray(place, end < 0 ? bytes.length : end));
}

function placesOfByte(bytes, byte) {
  const places = [];
  for (let at = bytes.indexOf(byte); at >= 0; at = bytes.indexOf(byte, at + 1)) places.push(at);
  return places;
}

export const countLines = (bytes) => placesOfByte(bytes, LINE_FEED).length;

// Where headers begin: at each `@` that begins a line.
export const headersIn = (bytes) =>
  placesOfByte(bytes, AT_SIGN).filter((place) => place === 0 || bytes[place - 1] === LINE_FEED);

// What is found in a text, in which each byte is a character: where it begins, and where it ends.
const spansOf = (bytes, pattern) => Array.from(new TextDecoder('latin1').decode(bytes).matchAll(pattern),
  ({ 0: { length }, index }) => ({ start: index, end: index + length }));

// The lines of a text that are neither blank nor comments, without their carriage returns.
export const linesIn = (bytes) => spansOf(bytes, /(?<=^|\n)[ \t]*[^\s#][^\n]*?(?=\r?(\n|$))/g);

// Arrays as one, of the kind of the first one.
export function joined(...parts) {
  const all = new parts[0].constructor(parts.reduce((size, part) => size + part.length, 0));
  let from = 0;
  for (const part of parts) {
    all.set(part, from);
    from += part.length;
  }
  return all;
}

// How much two texts, of bytes or characters, have in common: where they begin to differ, and how much at their ends.
function commonOf(before, after) {
  const least = Math.min(before.length, after.length);
  let from = 0, same = 0;
  while (from < least && before[from] === after[from]) from++;
  while (same < least - from && before[before.length - 1 - same] === after[after.length - 1 - same]) same++;
  return { from, same };
}

// What makes the one text the other: from a place on, some bytes are taken and others put; or null of the same one.
export function spliceOf(before, after) {
  if (before === after) return null;
  const { from, same } = commonOf(before, after);
  return { from, taken: before.slice(from, before.length - same), put: after.slice(from, after.length - same) };
}

export function spliced(bytes, splice) {
  if (splice === null) return bytes;
  const { from, taken, put } = splice;
  return joined(bytes.subarray(0, from), put, bytes.subarray(from + taken.length));
}

export const turned = (splice) => splice && { from: splice.from, taken: splice.put, put: splice.taken };

// ---- the text field, whose lines end by line feeds alone

export const fieldText = (bytes) => asText.decode(bytes).replace(/\r\n?/g, '\n');

// How lines end in a text: as the first one does.
export function endingOf(bytes) {
  const first = bytes.indexOf(LINE_FEED);
  return first > 0 && bytes[first - 1] === CARRIAGE_RETURN ? '\r\n' : '\n';
}

// The bytes after the field's text was changed. Lines that were not touched keep their bytes.
export function afterField(bytes, text) {
  const [before, after] = [fieldText(bytes).split('\n'), text.split('\n')];
  const { from, same } = commonOf(before.slice(0, -1), after.slice(0, -1));
  const kept = before.at(-1) === after.at(-1) ? same + 1 : 0; // lines at the end
  const starts = [0, ...spansOf(bytes, /\r\n?|\n/g).map(({ end }) => end), bytes.length];
  const put = after.slice(from, after.length - kept).concat(kept > 0 ? '' : []).join(endingOf(bytes));
  return joined(bytes.subarray(0, starts[from]), bytesOf(put), bytes.subarray(starts[before.length - kept]));
}
