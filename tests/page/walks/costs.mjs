// What an act costs, counted and not timed: it does not grow with the acts before it, and a shuffle makes few elements.

import { at, choose, differ, frame, later, load, paste } from './frame.mjs';

const MANY = 300; // shuffles
const FIRST = 50; // after so many the page draws and counts no more boards
const TURNS = 5; // acts that are looked at: by chance some ask the library more often, and none asks less
const MOST_MADE = 24; // elements: a small picture has 11, and each suit that becomes another one 2

// What the page does in an act: how often it looks at the memory of a module, how many elements it makes, and how many
// signs it has the browser keep.
async function costOf(act) {
  const { WebAssembly: { Memory }, IDBObjectStore, MutationObserver } = frame.contentWindow;
  const cost = { looks: 0, elements: 0, kept: 0 };
  const buffer = Object.getOwnPropertyDescriptor(Memory.prototype, 'buffer');
  Object.defineProperty(Memory.prototype, 'buffer', { ...buffer, get() { cost.looks += 1; return buffer.get.call(this); } });
  const { put } = IDBObjectStore.prototype;
  IDBObjectStore.prototype.put = function counted(value) {
    cost.kept += JSON.stringify(value).length;
    return put.call(this, value);
  };
  const isElement = ({ nodeType }) => nodeType === Node.ELEMENT_NODE;
  const withParts = (it) => 1 + it.querySelectorAll('*').length;
  const observer = new MutationObserver((all) => all.forEach(({ addedNodes }) => {
    cost.elements += [...addedNodes].filter(isElement).reduce((sum, it) => sum + withParts(it), 0);
  }));
  observer.observe(frame.contentDocument, { childList: true, subtree: true });
  act();
  await later(20);
  observer.disconnect();
  Object.defineProperty(Memory.prototype, 'buffer', buffer);
  IDBObjectStore.prototype.put = put;
  return cost;
}

// The least of each that is counted in some acts.
async function leastOf(act) {
  const costs = [];
  for (let turn = 0; turn < TURNS; turn++) costs.push(await costOf(act));
  return Object.fromEntries(Object.keys(costs[0]).map((name) => [name, Math.min(...costs.map((cost) => cost[name]))]));
}

export async function costs({ example }) {
  const shuffle = () => at('shuffle').click();
  const shuffleOften = async (often) => {
    for (let turn = 0; turn < often; turn++) {
      shuffle();
      if (turn % 20 === 0) await later();
    }
    await later(100);
  };
  await load();
  paste(example);
  choose('deal-1');
  await shuffleOften(FIRST);
  const early = await leastOf(shuffle);
  await shuffleOften(MANY);
  const late = await leastOf(shuffle);
  const most = (name) => (name === 'elements' ? MOST_MADE : 1.1 * early[name]);
  return Object.keys(early).flatMap((name) => [...differ(`${name} counted`, early[name] > 0, true),
    ...differ(`${name}: ${late[name]} after ${early[name]}`, late[name] <= most(name), true)]);
}
