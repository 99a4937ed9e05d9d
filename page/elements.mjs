// Elements of the page.

/** @type {(id: string) => any} */
export const at = (id) => document.getElementById(id);
export const prefersStill = matchMedia('(prefers-reduced-motion: reduce)');

// An element with these properties; whatever is said in it is text, never markup.
export function element(name, properties, ...children) {
  const made = Object.assign(document.createElement(name), properties);
  made.append(...children);
  return made;
}

export function shape(name, attributes, ...children) {
  const made = document.createElementNS('http://www.w3.org/2000/svg', name);
  for (const [key, value] of Object.entries(attributes)) made.setAttribute(key, value);
  made.append(...children);
  return made;
}

export const drawing = (name, className) => shape('svg', { class: className }, shape('use', { href: `#${name}` }));

// A drawing of a suit, which may become another one: what a `use` shows is made anew when that changes.
export const suitDrawing = (className) => shape('svg', { class: className, viewBox: '0 0 100 100' }, shape('path', {}));

export function listen(target, acts) {
  for (const [event, act] of Object.entries(acts)) target.addEventListener(event, act);
}

// Puts a text where it is not there yet, so that nothing is read out twice; it may say that something is wrong.
export function write(id, words, isBad = false) {
  if (at(id).textContent !== words) at(id).textContent = words;
  at(id).classList.toggle('bad', isBad);
}

// Fills a list with items of these words and values, where they are not there yet.
export function fill(id, name, words, values = []) {
  const items = words.map((it, place) => element(name, name === 'option' ? { value: values[place] ?? place } : {}, it));
  if (at(id).innerHTML !== items.map((it) => it.outerHTML).join('')) at(id).replaceChildren(...items);
}

// Puts these elements into another one, which keeps what it has of them where it is.
export function put(holder, wanted) {
  for (const it of [...holder.children]) if (!wanted.includes(it)) it.remove();
  wanted.forEach((it, place) => { if (holder.children[place] !== it) holder.insertBefore(it, holder.children[place]); });
}

const drawnOf = new Map(); // what is drawn, by what it was drawn of

// Whether something is to be drawn anew: one of the things that it is drawn of is another one.
export function isNew(name, ...things) {
  const before = drawnOf.get(name);
  drawnOf.set(name, things);
  return !before || things.some((it, place) => it !== before[place]);
}

// Names a button; on narrow screens the rest of its name is not shown.
export const nameButton = (id, word, rest = '') =>
  at(id).replaceChildren(word, element('span', { className: 'long' }, rest));

// A control that has nothing to do keeps the focus, which a disabled one would lose.
export const setIdle = (id, isIdle) => { at(id).ariaDisabled = isIdle; };

// Hides a control; where it has the focus, another one takes it.
export function hide(id, isHidden) {
  const hadFocus = isHidden && at(id).contains(document.activeElement);
  at(id).hidden = isHidden;
  if (hadFocus) at('shuffle').focus({ preventScroll: true });
}

export function say(words, isBad = false) {
  write('counter', words, isBad);
  if (!prefersStill.matches && words !== '') at('counter').animate({ opacity: [.3, 1] }, { duration: 250 });
}

export async function copy(id, text) {
  try {
    await navigator.clipboard.writeText(text);
    write(id, 'Copied.');
  } catch {
    write(id, 'This browser does not let the page copy: select it, and press Ctrl-C.', true);
  }
}

export function download(parts, name) {
  const link = element('a', { href: URL.createObjectURL(new Blob(parts, { type: 'text/plain' })), download: name });
  link.click();
  setTimeout(() => URL.revokeObjectURL(link.href), 10_000);
}
