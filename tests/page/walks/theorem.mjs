// Many boards, one position: what a visitor sees of it.

import { all, at, choose, differ, frame, later, load, paste, plain, set, until } from './frame.mjs';
import { asDrawn, drawn, shown } from './drawn.mjs';

const colourOf = (it) => frame.contentWindow.getComputedStyle(it).backgroundColor;

// Each column has the colour of its place on the canonical board, on both boards and on the small pictures, and says
// that place where it is another one.
export function coloured({ example, records }) {
  paste(example);
  const columnsOf = (side) => all(`#${side} .pile.column`);
  const colours = columnsOf('right').map((pile) => colourOf(pile.firstChild));
  const found = differ('colours', new Set(colours).size, 8);
  return found.concat(records.flatMap(({ name, columns }) => {
    choose(name);
    return columnsOf('left').flatMap((pile, column) => {
      const place = columns.indexOf(String(column + 1));
      const said = place === column ? `${column + 1}` : `${column + 1}→${place + 1}`;
      const stripes = all(`#left .card[data-key="${column + 1}"] .stripe`).map((it) => it.dataset.place);
      const bars = all('#gathered .picture.left')[0].querySelectorAll('path')[column];
      return [...differ(`${name}: column ${column + 1}`, pile.firstChild.textContent, said),
        ...differ(`${name}: its colour`, colourOf(pile.firstChild), colours[place]),
        ...differ(`${name}: its cards`, [...new Set(stripes)].join(), stripes.length > 0 ? `${place + 1}` : ''),
        ...differ(`${name}: in the picture`, bars.dataset.place, `${place + 1}`)];
    });
  }));
}

const frames = () => all('#gathered li').map((item) => item.querySelectorAll('.seen').length);

// Each shuffled board stands before an arrow to one canonical board, and a board with two cards swapped in a second
// frame; the two cards are marked on both boards. Each of them is shown again where it is pressed.
export async function gathered({ example, records: [{ name }] }) {
  await load();
  paste(example);
  choose(name);
  const boards = [drawn('left')];
  for (let turn = 0; turn < 3; turn++) {
    at('shuffle').click();
    boards.push(drawn('left'));
  }
  const found = differ('shuffled', frames().join(), '4');
  const canonical = drawn('right');
  while (frames().length < 2) at('swap').click();
  const swapped = drawn('left');
  found.push(...differ('swapped', frames()[0], 4), ...differ('marks', marks(), 'told told'));
  boards.forEach((_, place) => {
    all('#gathered .seen')[place].click();
    found.push(...differ(`board ${place}`, drawn('left'), boards[place]));
    found.push(...differ('its canonical board', drawn('right'), canonical));
  });
  found.push(...differ('no mark', all('.card.exchanged').length, 0));
  all('#gathered .seen').at(-1).click();
  return [...found, ...differ('swapped again', drawn('left'), swapped)];
}

// Whether the two marked cards of each board are two, and those of the left one are told.
function marks() {
  const said = plain(at('counter').textContent);
  return ['left', 'right'].map((side) => {
    const cards = all(`#${side} .card.exchanged`).map((card) => shown(card.dataset.card));
    const isTold = side === 'right' || cards.every((card) => said.includes(card));
    return cards.length === 2 && isTold ? 'told' : cards.join();
  }).join(' ');
}

// What was seen of one board is not shown with another one of the same name, nor in another game; a link may ask for a
// shuffle that is none; and where no two columns have cards the demonstration swaps none.
export async function gatheredAnew({ records: [one, other] }) {
  await load();
  const found = [];
  for (const { board } of [one, other]) {
    paste(board);
    found.push(...differ('of another board', frames().join(), '1'));
    for (const id of ['shuffle', 'swap', 'swap']) at(id).click();
  }
  set('game', 2, 'change');
  found.push(...differ('in another game', at('shown').hidden || frames().join(), '1'));
  paste('Found: H-Q C-K D-K S-K\n:\n: KH\n');
  at('replay').click();
  at('skip').click();
  found.push(...differ('one card', `${frames().length} ${at('skip').hidden}`, '1 true'));
  await load('#deal=1&shuffle=99999999999999999999');
  return [...found, ...differ('no shuffle', `${frames()} ${drawn('left') === asDrawn(one.board)}`, '1 true')];
}

const title = () => at('boards-title').textContent.split(',')[0];

// It begins by itself on a board of twelve cards, which becomes the right one over a ghost of it: the cards keep their
// suits until all columns are there. It is skipped, leaves nothing to undo, and is played once more.
export async function demonstration() {
  await load();
  const found = [...differ('at first', `${frames()} ${title()}`, '1 twelve-cards')];
  const suits = () => all('#right .table > div:last-child .face').filter((face) => face.classList.contains('red')).length;
  await until(() => all('.ghost').length > 0);
  const cards = [...all('#left .card'), ...all('#right .table > div:last-child .card')];
  const shape = (card) => card.querySelector('.pip path').getAttribute('d');
  const isSame = () => cards.slice(0, 52).every((card, place) => shape(card) === shape(cards[place + 52]));
  await later(1_000);
  found.push(...differ('in flight', `${isSame()} ${suits()}`, 'true 26'));
  await until(() => frames()[0] > 1);
  found.push(...differ('landed', `${isSame()} ${all('.ghost').length}`, 'false 0'));
  found.push(...differ('begins', frames()[0] > 1, true), ...differ('may be skipped', at('skip').hidden, false));
  at('skip').click();
  found.push(...differ('skipped to', `${frames()} ${title()}`, '4,1 deal-1'),
    ...differ('skipped', at('skip').hidden, true), ...differ('nothing to undo', at('undo').ariaDisabled, 'true'));
  at('replay').click();
  found.push(...differ('again', `${frames()} ${at('skip').hidden}`, '1 false'));
  at('undo').click();
  return [...found, ...differ('undone', `${frames()} ${at('skip').hidden}`, '4,1 true')];
}

// The reader's first act ends it.
export async function demonstrationLeft() {
  await load();
  await until(() => all('.ghost').length > 0);
  at('shuffle').click();
  const before = drawn('left');
  await later(2_500);
  return [...differ('ended', at('skip').hidden, true), ...differ('still', drawn('left'), before),
    ...differ('landed', all('.ghost').length, 0)];
}

// Where motion is not wanted the demonstration is at its end at once, and nothing moves after it.
export async function still() {
  await load();
  const found = [...differ('gathered', frames().join(), '4,1'), ...differ('no skip', at('skip').hidden, true)];
  at('shuffle').click();
  at('on').click();
  found.push(...differ('shuffled', frames().join(), '5,1'));
  at('replay').click();
  const moving = frame.contentDocument.getAnimations().length;
  return [...found, ...differ('animations', moving, 0), ...differ('replayed', frames().join(), '4,1')];
}
