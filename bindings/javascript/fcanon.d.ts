/** Loads the module, once. Node needs no call; a page awaits it before all others. Where the page is made by a bundler, it
 * names the file, as `init(new URL('fcanon.wasm', location.href))`, or hands over its bytes or the compiled module. */
export default function init(source?: URL | string | BufferSource | WebAssembly.Module): Promise<void>;

/** The games, in the order of their numbers in fcanon.h. */
export const GAMES: readonly Game[];
// tools/tables wrote this from fcanon.h, to the next empty line.
export type Game = 'freecell' | 'bakers_game' | 'eight_off';

/** Why a call did not do what it was asked for. */
export class FcanonError extends Error {
  /** The number in fcanon.h. */
  readonly answer: number;
  /** Its words. */
  readonly reason: string;
  /** The place of a text's first fault, in bytes from 0; or which of several boards is none. */
  readonly place: number | null;
}

/** A way from one board of a game to another: a renaming of suits, orders of columns and cells. It never changes, and
 * structuredClone and postMessage make of it what `toJSON` does. */
export class Passage {
  /** The passage of 20 bytes, which fcanon.h describes. */
  constructor(bytes: Uint8Array, game?: Game);
  readonly game: Game;
  /** Its bytes as hexadecimal digits. */
  readonly passage: string;
  /** A copy of the 20 bytes. */
  readonly bytes: Uint8Array;
  /** The passage that leads back. */
  inverse(): Passage;
  /** This passage, and then the next one of the same game. */
  followedBy(next: Passage): Passage;
  /** The board that the passage leads to from a board. */
  image(board: Board): Board;
  /** The move of the same card, as '3a', on the board that the passage leads to. */
  carry(move: string): string;
  /** The move of the same cards, as '14v3' or '14', on the board that the passage leads to. */
  carryRun(run: string): string;
  /** What JSON.stringify writes of it: its bytes as hexadecimal digits. */
  toJSON(): { game: Game; passage: string };
  /** The passage that `toJSON` or structuredClone made this of. */
  static fromJSON(json: { game: Game; passage: string }): Passage;
  /** The passage as `fcanon canon` prints it. */
  toString(): string;
}

/** The bytes of the canonical boards of boards, of which each is 72 bytes. */
export function canonicalizeAll(boards: Uint8Array, game?: Game): Uint8Array;

/** A board of a game, on which each of the 52 cards is once. It never changes. What structuredClone and postMessage make of it
 * is what `toJSON` makes, and no Board: `fromJSON` takes it. */
export class Board {
  /** The board that a text spells, by its lines as Freecell Solver prints them. */
  constructor(text: string | Uint8Array, game?: Game);
  /** One of Microsoft's numbered deals, of FreeCell or Baker's Game. */
  static deal(number: number, game?: Game): Board;
  /** The board of these 72 bytes, which fcanon.h describes. */
  static fromBytes(bytes: Uint8Array, game?: Game): Board;
  readonly game: Game;
  /** Its text. */
  readonly board: string;
  /** A copy of the 72 bytes. */
  readonly bytes: Uint8Array;
  /** A text that equal boards of a game share and no others, for a Map or a Set. */
  readonly key: string;
  /** Whether all cards are home. */
  readonly isWon: boolean;
  /** Whether the boards are one, card for card. */
  equals(other: Board): boolean;
  /** The canonical board of all that are equivalent to this one. */
  canonical(): Board;
  /** The canonical board, and the passage to it. */
  canonicalize(): { board: Board; passage: Passage };
  /** A hash of the canonical board in 16 bytes, the same in each run and on each machine. */
  canonicalHash(): Uint8Array;
  /** The canonical board of the board after a move of one card, and the passage to it. */
  child(move: string): { board: Board; passage: Passage };
  /** The moves of one card that the game allows. */
  moves(): string[];
  /** The moves of two and more cards that the game allows, each with its number of cards, as '14v3'. */
  runMoves(): string[];
  /** The moves of one card that the game allows, each with the canonical board after it. */
  children(): { move: string; board: Board }[];
  /** The renamings that with some orders lead from the board to itself; the first is 'CDHS'. */
  symmetries(): string[];
  /** Whether keys of a closed list, of 72 bytes each, show that no list of moves wins from the board. */
  isUnsolvable(keys: Uint8Array): boolean;
  /** The passage to another board, or null if that is not equivalent. */
  passageTo(other: Board): Passage | null;
  /** The board after a move of one card, as '3a'. */
  play(move: string): Board;
  /** The board after a move of several cards, as '14v3' or '14'. */
  playRun(run: string): Board;
  /** The moves of one card that do what a move of several does. */
  expand(run: string): string[];
  /** How many cards can go at once to a column, 1 to 8. */
  capacity(column: number): number;
  /** What JSON.stringify writes of it: its text. */
  toJSON(): { game: Game; board: string };
  /** The board that `toJSON` or structuredClone made this of. */
  static fromJSON(json: { game: Game; board: string }): Board;
  /** The board as `fcanon show` prints it. */
  toString(): string;
}

/** What is wrong with keys of 72 bytes each that are said to be those of a closed list, with which of them, and for answer 19
 * the move that leads out; or null: then no list of moves wins from the board of any of them. */
export function findFlaw(
  keys: Uint8Array, game?: Game,
): { answer: number; reason: string; place: number; move: string | null } | null;
