// The library's calls: a board has 72 bytes, a passage 20, as fcanon.h says. A list is its sign, `>` or `>>`, and its
// moves as they are written. No rule of a game is in the page: boards, canonical boards, passages and moves come from
// these calls, which are proved. What they make of lists is at the end.

import {
  answerOf, GAMES, MOST_CHILDREN, MOST_MOVES, MOST_RUN_MOVES, numberIn, textOf, wordsOf,
} from '../bindings/javascript/calls.js';

// tools/tables wrote this from fcanon.h, to the next empty line.
export const TITLES = ['FreeCell', "Baker's Game", 'Eight Off'];
export const IN_SUIT = [false, true, true];

export const MOST = { input: 16_777_216, records: 65_536 };
const [BOARD, PASSAGE, NUMBER, TEXT] = [72, 20, 8, 256];
const CARRY = { '>': 'carry', '>>': 'carry_run' };
const PLAY = { '>': 'play', '>>': 'play_run' };

// A move as it is written, and in three bytes: its two piles and how many cards it says, or 0.
export const countOf = (move) => parseInt(move[3] ?? '0', 16);
export const moveOf = (from, to, count = 0) => from + to + (count > 0 ? `v${count.toString(16)}` : '');
const moveIn = (bytes) => moveOf(String.fromCharCode(bytes[0]), String.fromCharCode(bytes[1]), bytes[2]);
const bytesOfMove = (move) => Uint8Array.of(move.charCodeAt(0), move.charCodeAt(1), countOf(move));

// Makes a call that is never refused here.
function must(call, ...given) {
  const answer = answerOf(call, ...given);
  if (answer !== 0) throw new Error(`${call}: ${wordsOf(answer)}`);
}

// What a call writes into its last array, of so many bytes.
function written(size, call, ...given) {
  const bytes = new Uint8Array(size);
  must(call, ...given, bytes);
  return bytes;
}

// Makes a call that writes some things of so many bytes, and then their number.
function listed(call, size, most, ...given) {
  const things = new Uint8Array(size * most);
  const count = numberIn(written(NUMBER, call, ...given, things, BigInt(most)));
  return Array.from({ length: count }, (_, place) => things.slice(size * place, size * (place + 1)));
}

export const fcanon = {
  write: (game, board) => textOf(written(TEXT, 'write', game, board)),
  image: (game, board, passage) => written(BOARD, 'image', game, passage, board),
  inverse: (game, passage) => written(PASSAGE, 'inverse', game, passage),
  isPassage: (game, passage) => answerOf('inverse', game, passage, new Uint8Array(PASSAGE)) === 0,
  areSame: (game, board, other) => answerOf('same', game, board, other, new Uint8Array(PASSAGE)) === 0,
  capacity: (game, board, key) => numberIn(written(NUMBER, 'capacity', game, board, key.charCodeAt(0))),
  expand: (game, board, move) => listed('expand', 2, MOST_MOVES, game, board, bytesOfMove(move)).map(moveIn),

  read(game, text) {
    const board = new Uint8Array(BOARD);
    must('read', game, text, BigInt(text.length), board, new Uint8Array(NUMBER));
    return board;
  },

  canon(game, board) {
    const canonical = new Uint8Array(BOARD);
    return { canonical, passage: written(PASSAGE, 'canon', game, board, canonical) };
  },

  // The moves that the game allows: those of one card, which say no count, and those of more.
  moves: (game, board) => [...listed('moves', 2, MOST_CHILDREN, game, board),
    ...listed('run_moves', 3, MOST_RUN_MOVES, game, board)].map(moveIn),

  carry(game, passage, { sign, moves }) {
    const carried = moves.map(bytesOfMove);
    for (const move of carried) must(CARRY[sign], game, passage, move);
    return { sign, moves: carried.map(moveIn) };
  },

  // The boards that a list leads through, how many of its moves were made, and the answer to the next one, or 0.
  play(game, board, list) {
    const boards = [board];
    let answer = 0;
    for (const move of list.moves) {
      const next = boards.at(-1).slice();
      answer = answerOf(PLAY[list.sign], game, next, bytesOfMove(move));
      if (answer !== 0) break;
      boards.push(next);
    }
    return { boards, board: boards.at(-1), made: boards.length - 1, answer };
  },

  // Microsoft's deal with this number, if the game has one.
  deal(game, number) {
    const board = new Uint8Array(BOARD);
    return number === number >>> 0 && answerOf('deal', game, number, board) === 0 ? board : null;
  },
};

export const listOf = (...moves) => ({ sign: '>>', moves });
export const headerLine = (record) => `@ ${GAMES[record.game]} ${record.name}\n`;
export const listLine = ({ sign, moves }) => `${[sign, ...moves].join(' ')}\n`;

// The boards that a list leads through, up to the first move that is refused, and on the canonical board likewise.
export function stepsOf(record, list) {
  const played = fcanon.play(record.game, record.board, list);
  const other = fcanon.play(record.game, record.canonical, list.image);
  const isAlike = played.answer === other.answer && played.made === other.made;
  return { boards: played.boards, images: other.boards, isAlike, refusal: played.answer && wordsOf(played.answer) };
}
