/** fcanon's commands over whole collections, in memory: each prints what the program prints. */
import type { Game } from 'fcanon';

/** Loads the module, once. Node needs no call; a page awaits it before all others. Where the page is made by a bundler, it
 * names the file, as `init(new URL('fcanon_runs.wasm', location.href))`, or hands over its bytes or the compiled module. */
export default function init(source?: URL | string | BufferSource | WebAssembly.Module): Promise<void>;

export type Command = 'show' | 'canon' | 'check' | 'group' | 'share' | 'expand' | 'unique' | 'table' | 'same' | 'symmetries'
  | 'count' | 'closed';
export const COMMANDS: readonly Command[];

export interface Printed {
  /** The bytes of what is printed, or of the collection that is made. */
  text: Uint8Array;
  /** The notes of an import, as the program has them on standard error. */
  said: Uint8Array;
  /** How many records were read; of an import, how many boards and refused blocks. */
  records: number;
  /** How many of them are refused, and one more where `closed` finds a flaw. */
  refused: number;
  /** The status that the program ends with: 1 where a record is refused or `closed` finds a flaw, else 0. */
  status: 0 | 1;
}

export interface RunOptions {
  /** That of a table or of figures. */
  format?: 'lines' | 'header' | 'json';
  /** The game of records without a header. */
  game?: Game;
  /** More than 65,536 records, or 16 MiB, are taken too. */
  anySize?: boolean;
}

export interface ImportOptions {
  game?: Game;
  /** What lines of cards are that may be columns or rows. */
  lines?: 'unsaid' | 'columns' | 'rows';
}

/** What a command prints of a collection. Where the run gives up, as on too large an input, an Error with the `answer` of
 * fcanon_runs.h is thrown. */
export function run(command: Command, text: string | Uint8Array, options?: RunOptions): Printed;

/** The collection that `import` makes of a text. */
export function importText(text: string | Uint8Array, options?: ImportOptions): Printed;

/** The same calls in a module of one's own, as in a worker. */
export class Runs {
  /** Makes the runs of the bytes of fcanon_runs.wasm, or of it compiled. */
  static from(source: BufferSource | WebAssembly.Module): Promise<Runs>;
  /** The same at once, of the compiled module. */
  static of(module: WebAssembly.Module): Runs;
  run(command: Command, text: string | Uint8Array, options?: RunOptions): Printed;
  import(text: string | Uint8Array, options?: ImportOptions): Printed;
}
