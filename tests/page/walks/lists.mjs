// Lists of moves, stepped and played.

import { all, at, choose, differ, later, paste, plain, printedBy, set, until } from './frame.mjs';
import { drawn, inPlayersWords, Moved, nameOf } from './drawn.mjs';

export function stepped({ example, lists, records }) {
  paste(example);
  return lists.flatMap(({ name, list, image, place, verdict, made }) => {
    choose(name);
    set('list', place, 'change');
    const found = differ('label', at('list').selectedOptions[0].textContent, `${place + 1}: ${inPlayersWords(verdict)}`);
    const record = records.find((it) => it.name === name);
    const [here, there] = [new Moved(record.board), new Moved(record.canonical)];
    for (let step = 0; step < made; step++) {
      const wanted = `Made: ${here.said(list[step])}; on the right board ${there.said(image[step])}. `;
      at('on').click();
      const targets = [here.make(list[step]), there.make(image[step])];
      const marked = all('.card.moved').map((card) => nameOf(card.dataset.key));
      const said = plain(at('move').textContent).slice(0, wanted.length);
      found.push(...differ(`${name} ${step}`, said, wanted), ...differ('here', drawn('left'), here.drawn()),
        ...differ('there', drawn('right'), there.drawn()), ...differ('marked', marked.join(), targets.join()));
    }
    const isEnd = made === list.length;
    const next = isEnd ? '' : `${here.said(list[made])}; on the right board ${there.said(image[made])}`;
    const end = endWords(verdict, made, next);
    const said = plain(at('move').textContent);
    return [...found, ...differ('on', at('on').ariaDisabled, 'true'), ...differ(said, said.includes(end), true),
      ...differ('one puzzle', said.endsWith('Still the same puzzle.'), true)];
  });
}

// The right board is called canonical on the way of a list only where it is: of this list at its start and its end.
export function captions({ example, lists }) {
  const { name, list } = lists.find((it) => it.verdict.startsWith('wins') && it.made > 60);
  paste(example);
  choose(name);
  const canonical = [];
  for (let step = 0; step <= list.length; step++) {
    if (at('right-title').textContent === 'Canonical board') canonical.push(step);
    at('on').click();
  }
  return differ('canonical', canonical.join(), `0,${list.length}`);
}

function endWords(verdict, made, next) {
  if (verdict.startsWith('wins')) return 'All cards are home on both boards.';
  if (verdict.startsWith('legal')) return `The list ends after ${made} moves.`;
  return `Move ${made + 1} is refused on both boards: ${next}: ${verdict.split(' ').slice(2).join(' ')}.`;
}

// Moves of several cards are one step each, and said card by card.
export function expanded({ runs: { text, expansions, refused } }) {
  const found = refused.flatMap((one) => {
    paste(one.text);
    return differ(one.text, at('move').textContent.includes(one.said) ? one.said : at('move').textContent, one.said);
  });
  paste(text);
  const here = new Moved(printedBy('expand').split('>')[0]);
  return found.concat(expansions.flatMap((moves) => {
    at('on').click();
    moves.forEach((move) => here.make(move));
    const said = at('expansion').hidden ? '' : at('expansion').textContent.split(' here,')[0];
    const wanted = moves.length > 1 ? `Card by card: ${moves.join(' ')}` : '';
    return [...differ('expansion', said, wanted), ...differ('here', drawn('left'), here.drawn())];
  }));
}

export async function scrubbed({ example, lists: [{ name }] }) {
  paste(example);
  choose(name);
  set('step', 7, 'input');
  const found = differ('scrubbed', at('count').textContent.split(' ')[0], '7');
  at('first').click();
  const isAtStart = at('back').ariaDisabled === 'true' && at('count').textContent.startsWith('0 ');
  found.push(...differ('back at the start', isAtStart, true));
  at('run').click();
  await until(() => !at('count').textContent.startsWith('0 '));
  at('run').click();
  const [step] = at('count').textContent.split(' ');
  found.push(...differ('played', Number(step) > 0, true));
  await later(800);
  return [...found, ...differ('paused', at('count').textContent.split(' ')[0], step)];
}
