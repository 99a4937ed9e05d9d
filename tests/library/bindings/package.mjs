// package.mjs: what objects of the JavaScript package keep, where Node finds it by its name. It stops
// at the first fault; tests/library/bindings/run says how it is run.

import assert from 'node:assert';
import { createRequire } from 'node:module';
import { readFileSync } from 'node:fs';
import { isDeepStrictEqual } from 'node:util';
import init, { Board, FcanonError, GAMES, Passage } from 'fcanon';
import initRuns, { COMMANDS, importText, run, Runs } from 'fcanon/runs';

await init();
const text = String(Board.deal(1));

for (const game of GAMES) {
  const board = new Board(text, game);
  const { passage } = board.canonicalize();
  const [boardBack, passageBack] = JSON.parse(JSON.stringify([board, passage]));
  assert(Board.fromJSON(boardBack).equals(board) && boardBack.game === game);
  const back = Passage.fromJSON(passageBack);
  assert.deepEqual([back.bytes, back.game], [passage.bytes, game]);
  assert.deepEqual(structuredClone([board, passage]), [board.toJSON(), passage.toJSON()]);
  assert(Board.fromJSON(structuredClone(board)).equals(board));
  assert(!isDeepStrictEqual(board, board.canonical()));
  assert(Board.fromBytes(structuredClone(board.bytes), game).equals(board));
  assert.throws(() => { board.game = 'freecell'; }, TypeError);
  assert.throws(() => { board.board = text; }, TypeError);
}

for (const passage of ['', '00', '0g'.repeat(20)]) {
  assert.throws(() => Passage.fromJSON({ game: 'freecell', passage }), FcanonError);
}
assert.throws(() => Board.fromJSON({ game: 'freecell', board: 'KC' }), FcanonError);
assert(new Board(text, 'freecell', new Uint8Array(72)).equals(new Board(text)));

// A Node that cannot require an ES module says what to write.
const require = createRequire(import.meta.url);
if (process.features.require_module) assert.equal(require('fcanon').Board, Board);
else assert.throws(() => require('fcanon'), /await import/);

// Whole commands run by the package's other module, over a string or bytes.
await initRuns();
const twice = `${text}\n@ freecell again\n${text}`;
const textOf = ({ text: bytes }) => new TextDecoder().decode(bytes);
const runs = await Runs.from(readFileSync(new URL(import.meta.resolve('fcanon/fcanon_runs.wasm'))));
for (const given of [twice, new TextEncoder().encode(twice)]) {
  for (const printed of [run('unique', given), runs.run('unique', given)]) {
    assert.deepEqual([textOf(printed), printed.records, printed.refused, printed.status], [text, 2, 0, 0]);
  }
}
for (const command of COMMANDS) assert(run(command, 'KC\n').status === 1, command);
assert.equal(textOf(run('count', text, { format: 'json', game: 'eight_off' })).slice(0, 2), '{"');
assert.deepEqual([importText(text).status, importText('nothing').status], [0, 1]);
assert.throws(() => run('swim', text), { message: 'no such task', answer: 10 });
assert.throws(() => run('show', text, { game: 'golf' }), { message: 'no such game', answer: 1 });
assert.throws(() => run('show', text, { format: 'verse' }), { message: 'no such format', answer: 11 });
