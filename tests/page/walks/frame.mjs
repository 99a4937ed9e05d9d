// The page in its frame, and what a reader does there.

export const GLYPHS = { C: '♣', D: '♦', H: '♥', S: '♠' };
export const frame = document.getElementById('frame');
export const at = (id) => frame.contentDocument.getElementById(id);
export const all = (selector) => [...frame.contentDocument.querySelectorAll(selector)];
// A text without the marks that have a sign of a suit drawn as a letter.
export const plain = (text) => text.replaceAll('\ufe0e', '');
export const later = (milliseconds) => new Promise((done) => setTimeout(done, milliseconds));
export const quoted = (value) => JSON.stringify(value);
export const differ = (what, got, wanted) => (got === wanted ? [] : [`${what}: ${quoted(got)} for ${quoted(wanted)}`]);

// Waits until this holds, a minute at most.
export async function until(test) {
  for (let turn = 0; turn < 6000 && !test(); turn++) await later(10);
}

// What is found once nothing is, or after half a minute: a browser lays a page out when it has time.
export async function settled(look) {
  for (let turn = 0; turn < 300 && look().length; turn += 1) await later(100);
  return look();
}

// Waits until a frame shows the page.
export async function opened(it = frame) {
  await new Promise((done) => { it.onload = done; });
  await until(() => it.contentDocument.body.dataset.is === 'ready');
}

async function leave() {
  frame.src = 'about:blank';
  await new Promise((done) => { frame.onload = done; });
}

// Leaves the page, and comes back in another tab.
export async function comeBack(hash = '') {
  await leave();
  sessionStorage.clear();
  frame.src = `/page.html${hash}`;
  await opened();
}

// Loads the page as it is for one who was never here.
export async function load(hash = '') {
  await leave();
  const gone = indexedDB.deleteDatabase('fcanon');
  await new Promise((done) => { gone.onsuccess = done; });
  await comeBack(hash);
}

// The same tab, loaded again.
export async function reload() {
  frame.contentWindow.location.reload();
  await opened();
}

// What the browser keeps of the page; and what it puts there.
export async function inWorks(act, mode = 'readonly', name = 'works') {
  const opening = indexedDB.open('fcanon', 1);
  await new Promise((done) => { opening.onsuccess = done; });
  const request = act(opening.result.transaction(name, mode).objectStore(name));
  await new Promise((done) => { request.onsuccess = done; });
  opening.result.close();
  return request.result;
}

export const works = () => inWorks((all) => all.getAll());

export function set(id, value, event) {
  at(id).value = value;
  at(id).dispatchEvent(new frame.contentWindow.Event(event, { bubbles: true }));
}

export function paste(text, game = 0) {
  set('game', game, 'change');
  set('text', text, 'input');
}

export function choose(name) {
  all('#groups button').find((button) => button.textContent === name).click();
}

export function printedBy(command) {
  at('program').open = true;
  set('command', command, 'change');
  return at('printed').textContent;
}

export function press(key, more = {}) {
  const { KeyboardEvent } = frame.contentWindow;
  const event = new KeyboardEvent('keydown', { key, bubbles: true, cancelable: true, ...more });
  frame.contentDocument.body.dispatchEvent(event);
}
