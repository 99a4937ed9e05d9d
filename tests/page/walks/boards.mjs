// The two boards, shuffles and swaps.

import { all, at, choose, differ, frame, GLYPHS, later, paste, printedBy, settled } from './frame.mjs';
import { asDrawn, drawn, shown } from './drawn.mjs';

export function boards({ example, records }) {
  paste(example);
  return records.flatMap(({ name, board, canonical }) => {
    choose(name);
    return [
      ...differ(name, drawn('left'), asDrawn(board)),
      ...differ(`${name} canonical`, drawn('right'), asDrawn(canonical)),
    ];
  });
}

// Each pile of the canonical board says which one it was, in words and by a light, under the mouse and by the keyboard.
export function images({ example, records }) {
  paste(example);
  return records.flatMap(({ name, columns }) => {
    choose(name);
    return [...columns].flatMap((old, place) => {
      const pile = all('#right .pile.column')[place];
      pile.dispatchEvent(new frame.contentWindow.MouseEvent('mouseover', { bubbles: true }));
      const lit = all('#left .pile.lit').map((it) => it.dataset.name).join();
      return [
        ...differ('lit', lit, `column ${old}`),
        ...differ('described', pile.getAttribute('aria-label').endsWith(`It was column ${old}.`), true),
      ];
    }).concat(differ('passage', at('passage').textContent.includes(`columns ${[...columns].join(' ')}`), true));
  });
}

// What is seen of the cards once they have come to rest: their faces, and where they lie.
export async function faces({ example, records: [{ name }] }) {
  paste(example);
  choose(name);
  at('shuffle').click();
  await later(50);
  await Promise.allSettled(frame.contentDocument.getAnimations().map((it) => it.finished));
  await later(400);
  return settled(() => all('.card').flatMap((card) => {
    const shape = card.querySelector('.pip path').getAttribute('d');
    const suit = [...'CDHS'].find((it) => at(it).querySelector('path').getAttribute('d') === shape);
    const rank = card.querySelector('.index').textContent;
    const pile = all(`#${card.closest('.board').id} .pile`).find((it) => it.dataset.key === card.dataset.key);
    const aside = Math.abs(card.getBoundingClientRect().x - pile.getBoundingClientRect().x);
    return [...differ('face', rank + GLYPHS[suit], shown(card.dataset.card)), ...differ('lies there', aside < 1, true)];
  }));
}

export function suits({ example, records }) {
  paste(example);
  return records.flatMap(({ name, renaming }) => {
    choose(name);
    return [...renaming].flatMap((now, place) => {
      const old = 'CDHS'[place];
      const [left, right] = ['left', 'right'].map((side) => all(`#${side} .card`));
      const isRenamed = (card, place) => right[place].dataset.card === card.dataset.card[0] + now;
      const isRight = left.every((card, place) => card.dataset.card[1] !== old || isRenamed(card, place));
      return differ(`${name}: cards that were ${old}`, isRight, true);
    });
  });
}

export function shuffled({ example, records }) {
  paste(example);
  const found = records.flatMap(({ name, board, canonical }) => {
    choose(name);
    return [1, 2, 3, 4, 5, 6].flatMap((times) => {
      at('shuffle').click();
      const wanted = `Shuffled ${times === 1 ? 'once' : `${times} times`}: same canonical board.`;
      return [...differ('counter', at('counter').textContent, wanted),
        ...differ(name, drawn('right'), asDrawn(canonical))];
    });
  });
  at('keep').click();
  const kept = at('boards-title').textContent.split(',')[0];
  const group = printedBy('group').split('@ ').find((it) => it.includes(` ${kept}`));
  const { name } = records[records.length - 1];
  return [...found, ...differ('kept in one group', group.includes(`: ${name} ${kept}`), true)];
}

export function swapped({ example, records: [{ name, board, canonical }] }) {
  paste(example);
  choose(name);
  at('swap').click();
  const found = differ('another one', drawn('right') !== asDrawn(canonical) && drawn('left') !== asDrawn(board), true);
  at('swap').click();
  return [...found, ...differ('back', drawn('right'), asDrawn(canonical)),
    ...differ('back', drawn('left'), asDrawn(board))];
}
