// driver.mjs PACKAGE: the JavaScript package which does what each line of standard input asks for;
// tests/library/bindings/run says how.

import assert from 'node:assert';
import fs from 'node:fs';
import { pathToFileURL } from 'node:url';

const { Board, FcanonError, GAMES, Passage, canonicalizeAll, findFlaw } = await import(pathToFileURL(process.argv[2]));
const said = [];
const lineOf = (board) => String(board).replaceAll('\n', '|');
const hexOf = (bytes) => Buffer.from(bytes).toString('hex');
const bytesOf = (hex) => Uint8Array.from(Buffer.from(hex, 'hex'));

function tellBoard(board) {
  const { board: canonical, passage } = board.canonicalize();
  const other = new Board(String(board), board.game);
  assert(board.equals(other) && board.key === other.key && board.bytes.length === 72);
  assert(canonical.equals(canonical.canonical()) && canonical.equals(board.canonical()));
  assert.equal(String(board.passageTo(canonical)), String(passage));
  assert.equal(String(passage.inverse().inverse()), String(passage));
  assert(Board.fromBytes(board.bytes, board.game).equals(board));
  const keys = canonicalizeAll(Buffer.concat([board.bytes, canonical.bytes]), board.game);
  assert(Buffer.concat([canonical.bytes, canonical.bytes]).equals(keys));
  said.push(`show ${lineOf(board)}`, `canon ${lineOf(canonical)}`, `# ${passage}`);
  const capacities = [1, 2, 3, 4, 5, 6, 7, 8].map((column) => board.capacity(column));
  said.push(`capacity ${capacities.join(' ')}`);
  said.push(`key ${hexOf(canonical.bytes)} ${hexOf(board.canonicalHash())}`);
  said.push(`symmetries ${board.symmetries().join(' ')}`);
  assert(passage.image(board).equals(canonical) && passage.inverse().image(canonical).equals(board));
  assert(passage.followedBy(passage.inverse()).image(board).equals(board));
  said.push(['moves', ...board.moves(), ...board.runMoves()].join(' '));
  const children = board.children();
  assert(children.every(({ move, board: child }) => board.child(move).board.equals(child)));
  said.push(['children', ...children.map(({ move }) => move)].join(' '));
  const flaw = findFlaw(canonical.bytes, board.game);
  assert.equal(board.isUnsolvable(canonical.bytes), flaw === null);
  assert.deepEqual(findFlaw(keys, board.game), { answer: 17, reason: 'not ascending', place: 1, move: null });
  said.push(`closed ${flaw === null ? 'yes' : `${flaw.answer} ${flaw.place} ${flaw.move ?? '-'}`}`);
}

function tellChild(board, move) {
  const [child, played] = [board.child(move), board.play(move).canonicalize()];
  assert.equal(`${child.board}${child.passage}`, `${played.board}${played.passage}`);
}

function verdict(start, moves, play) {
  let board = start;
  for (const [index, move] of moves.entries()) {
    try {
      if (play === 'play') tellChild(board, move);
      board = board[play](move);
    } catch (error) {
      if (!(error instanceof FcanonError)) throw error;
      return `illegal ${index} ${error.reason}`;
    }
  }
  return `${board.isWon ? 'wins' : 'legal'} ${moves.length}`;
}

function expanded(start, moves) {
  let board = start;
  return moves.flatMap((move) => {
    const found = board.expand(move);
    board = board.playRun(move);
    return found;
  });
}

function tellList(board, mark, moves) {
  const runs = mark === '>>';
  const { board: canonical, passage } = board.canonicalize();
  const images = moves.map((move) => (runs ? passage.carryRun(move) : passage.carry(move)));
  const play = runs ? 'playRun' : 'play';
  const got = verdict(board, moves, play);
  assert.equal(got, verdict(canonical, images, play));
  said.push([mark, ...images].join(' '), got);
  if (runs && !got.startsWith('illegal')) said.push(['>', ...expanded(board, moves)].join(' '));
}

// Numbers by chance, which each language draws alike: xorshift of 32 bits.
function numbersFrom(seed) {
  let it = seed;
  return () => {
    it ^= it << 13;
    it ^= it >>> 17;
    it ^= it << 5;
    return it >>> 0;
  };
}

// Bytes of which up to two are others.
function damaged(draw, given) {
  const bytes = Uint8Array.from(given);
  for (let left = draw() % 3; left > 0; left--) {
    const at = draw() % bytes.length;
    bytes[at] = draw() % 60;
  }
  return bytes;
}

function answerTo(call) {
  try {
    call();
  } catch (error) {
    if (!(error instanceof FcanonError)) throw error;
    return error.answer;
  }
  return 0;
}

// A sum of what is answered to damaged boards and passages, and to moves by chance.
function tellAnswers(seed, rounds) {
  const [draw, signs] = [numbersFrom(seed), '12345678abcdefgkhX \u00e9'];
  let total = 0;
  for (let round = 0; round < rounds; round++) {
    const game = GAMES[draw() % GAMES.length];
    const board = Board.deal(draw() % 1000 + 1);
    const bytes = damaged(draw, board.bytes);
    const passage = damaged(draw, board.canonicalize().passage.bytes);
    const move = signs[draw() % signs.length] + signs[draw() % signs.length];
    const asked = [() => Board.fromBytes(bytes, game), () => new Passage(passage, game),
      () => board.play(move), () => board.playRun(`${move}v3`)];
    for (const call of asked) total = (Math.imul(31, total) + answerTo(call)) >>> 0;
  }
  said.push(`answers ${total}`);
}

function made(what, game, given) {
  if (what === 'boards') canonicalizeAll(bytesOf(given), GAMES[game]);
  if (what === 'board') return new Board(bytesOf(given), GAMES[game]);
  if (what === 'bytes') return Board.fromBytes(bytesOf(given), GAMES[game]);
  return Board.deal(Number(given), GAMES[game]);
}

let board;
for (const line of fs.readFileSync(0, 'utf8').split('\n').slice(0, -1)) {
  const [what, ...words] = line.split(' ');
  try {
    if (what.startsWith('>')) {
      tellList(board, what, words);
    } else if (what === 'answers') {
      tellAnswers(...words.map(Number));
    } else {
      board = made(what, ...words);
      said.push('made');
      tellBoard(board);
    }
  } catch (error) {
    if (!(error instanceof FcanonError)) throw error;
    said.push(`refused ${error.message}`);
  }
}
console.log(said.join('\n'));
