// Works the built page, which is in a frame, as a reader does; compares what it shows with what the program printed,
// and hands in what is wrong. Each part is a name and a function that gives the faults which it found.

import { boards, faces, images, shuffled, suits, swapped } from './boards.mjs';
import { costs } from './costs.mjs';
import { load } from './frame.mjs';
import {
  branched, counts, dragged, gripped, legal, lettersOff, pressed, refusals, states, typed, walked,
} from './hands.mjs';
import {
  branchKept, dropped, history, keptBadly, keptHere, lineEnds, linkHolds, linkTooLong, openedTwice, placeKept,
  undoneAndLeft,
} from './history.mjs';
import { captions, expanded, scrubbed, stepped } from './lists.mjs';
import { claims, copied, earlierWorks, keptOrAsked, linkedOver, twoTabs, undoneInFields } from './kept.mjs';
import { contrasts, fitting, focused, largeLetters, named, structured } from './seen.mjs';
import {
  collections, dealt, faults, imported, kept, large, linked, linkedDeals, names, pasted, searched, shared,
} from './text.mjs';
import { coloured, demonstration, demonstrationLeft, gathered, gatheredAnew, still } from './theorem.mjs';

const PARTS = {
  'commands on collections': collections, boards, 'piles and their images': images, suits, faces,
  'lists stepped': stepped, captions, 'moves of several cards': expanded, 'lists scrubbed and played': scrubbed,
  'keys in a board': walked, shuffled, swapped, 'moves typed': typed, 'moves amid a list': branched,
  'moves by pointer': pressed, refusals, deals: dealt, faults, names, 'names looked for': searched, 'boards kept': kept,
  'shared lists': shared, links: linked,
  'links of deals': linkedDeals, 'large texts': large, 'what is pasted': imported, 'what is found and pasted': pasted,
  'names of controls': named, contrasts,
  focus: focused, 'all sizes': fitting, 'large letters': largeLetters, 'runs by keys': counts,
  'states of piles': states, 'what can move': legal, 'letters turned off': lettersOff, 'what is dragged': gripped,
  dragged, history, 'acts after undo': undoneAndLeft, 'branches of play': branchKept,
  'kept by the browser': keptHere, 'kept badly': keptBadly, 'files and texts dropped': dropped,
  'a file opened twice': openedTwice,
  'ends of lines': lineEnds, 'what links hold': linkHolds, 'links too long': linkTooLong,
  'places in lists': placeKept,
  'a link over other work': linkedOver, 'earlier work': earlierWorks, 'two tabs': twoTabs,
  'kept, or asked': keptOrAsked, 'undone in fields': undoneInFields, 'what is copied': copied,
  'what the header claims': claims, 'how the page is built': structured,
  'colours of columns': coloured, 'boards gathered': gathered, 'boards gathered anew': gatheredAnew, demonstration,
  'demonstration left': demonstrationLeft,
};
const WITHOUT_MOTION = { 'without motion': still, 'what a shuffle costs after many': costs };

async function walk() {
  const given = await (await fetch('/given.json')).json();
  const found = {};
  await load();
  for (const [name, part] of Object.entries(location.search.endsWith('&still') ? WITHOUT_MOTION : PARTS)) {
    try {
      found[name] = (await part(given)).slice(0, 5);
    } catch (error) {
      found[name] = [String(error.stack ?? error)];
    }
  }
  return found;
}

walk().catch((error) => ({ walk: [String(error)] })).then((found) => {
  fetch('/found' + location.search, { method: 'POST', body: JSON.stringify(found) });
});
