// typed.ts: uses of the JavaScript package that TypeScript must take, and wrong ones that it must refuse.
// It is checked, and not run; tests/library/bindings/run says how.

import init, { Board } from 'fcanon';
import initRuns, { COMMANDS, importText, Printed, run, Runs } from 'fcanon/runs';

export async function tell(): Promise<number> {
  await init();
  await initRuns(new URL('https://example.org/fcanon_runs.wasm'));
  const options = { format: 'json', game: 'eight_off', anySize: true } as const;
  const made: Printed = run('group', String(Board.deal(1)), options);
  const board: Board = Board.fromBytes(Board.deal(1).bytes, 'bakers_game');
  const again: Uint8Array = importText(made.text, { lines: 'rows' }).said;
  const own = await Runs.from(again);
  return board.bytes.length + own.run(COMMANDS[0], 'x').status + made.records;
}

export function wrong(): void {
  // @ts-expect-error
  run('swim', '');
  // @ts-expect-error
  run('show', 7);
  // @ts-expect-error
  run('table', '', { format: 'verse' });
  // @ts-expect-error
  importText('', { lines: 'knots' });
  // @ts-expect-error
  Board.deal(1, 'golf');
  // @ts-expect-error
  Board.deal(1).play(3);
}
