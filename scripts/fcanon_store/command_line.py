"""The words of the command line, and how a run ends."""

import argparse
import os
import re
import signal
import sqlite3
import sys
import textwrap
from contextlib import nullcontext
from typing import Callable, List, NamedTuple, NoReturn

from . import Fault, commands
from .boards import GAMES, RELEASE
from .solver import FREECELL_PROVER, FREECELL_SOLVER, UNSOLVABLE
from .store import Store

USAGE = "fcanon-store add|look|solve|close|forget|export|query|stats|check STORE\n           [OPTION ..]"
ABOUT = """Keeps positions with their records and solutions in the file STORE, a database
of SQLite. Boards that are equivalent are one position: a solution of one is
found from each other. `fcanon-store COMMAND --help` says more of a command."""
NOTES = """A run that is killed, or that cannot write the store, keeps what it had added.
Several runs do each other no harm, and each counts what it added itself.

Status: 0, 1 if a record was refused or check found a fault, 2 for other words
than these, 3 if the run gave up."""
WIDTH = 78  # of helps


class Command(NamedTuple):
    """What a command does, how it uses a store, and which of the options it has. `see` reads it as it is at one moment."""

    run: Callable[[Store, argparse.Namespace], int]
    use: str
    options: str
    about: str


COMMANDS = {
    "add": Command(commands.add, "make", "variant files",
                   "Add each record of collections: its board, its name, and its first list that wins"),
    "look": Command(commands.look, "read", "variant files",
                    "Print each record of collections with the names under which its position is known, and a list that wins"),
    "solve": Command(commands.solve, "write", "solver",
                     "Look for solutions of the positions that have none, by a solver; what fcanon accepts is kept at once"),
    "close": Command(commands.close, "write", "keys",
                     "Mark the positions of keys as unsolvable, where the library accepts these as those of a closed list"),
    "forget": Command(commands.forget, "write", "forgotten",
                      "Take records out, and what is known of positions that then have none; or solutions"),
    "export": Command(commands.export, "see", "which",
                      "Print records as a collection, each with the shortest solution, as it is played on its own board"),
    "query": Command(commands.query, "see", "which json",
                     "Print a line for each record: name, game, position, moves of the shortest solution, file, line"),
    "stats": Command(commands.stats, "see", "json",
                     "Print for each game how many positions, records and solutions there are"),
    "check": Command(commands.check, "see", "",
                     "Look for damage, play each solution once more, and find each record's canonical board anew"),
}


class Formatter(argparse.RawDescriptionHelpFormatter):
    """Helps that are as wide in each terminal, with each word of a command in one piece."""

    def __init__(self, prog: str) -> None:
        super().__init__(prog, width=WIDTH, max_help_position=21)

    def _split_lines(self, text: str, width: int) -> List[str]:
        return textwrap.wrap(text, width, break_on_hyphens=False)


class Parser(argparse.ArgumentParser):
    def __init__(self, **words) -> None:
        super().__init__(formatter_class=Formatter, allow_abbrev=False, **words)

    def error(self, message: str) -> NoReturn:
        print(f"{self.format_usage()}\nfcanon-store: {message}", file=sys.stderr)
        sys.exit(2)


def positive(word: str) -> int:
    number = int(word) if word.isdecimal() else 0
    if not number:
        raise argparse.ArgumentTypeError(f"{word} is no number from 1 on")
    return number


def pattern(word: str) -> "re.Pattern[str]":
    try:
        return re.compile(word)
    except re.error as fault:
        raise argparse.ArgumentTypeError(f"{word} is no regular expression: {fault}")


def add_files(parser: argparse.ArgumentParser) -> None:
    parser.add_argument("files", metavar="FILE", nargs="*", help="a collection: standard input where none is named, or -")


def add_keys(parser: argparse.ArgumentParser) -> None:
    parser.add_argument("keys", metavar="FILE", nargs="+",
                        help="the keys of a closed list, a file NAME.GAME.keys as fcanon-close makes them")


def add_forgotten(parser: argparse.ArgumentParser) -> None:
    one = parser.add_mutually_exclusive_group(required=True)
    one.add_argument("--record", metavar="NAME", help="take out the records of this name")
    one.add_argument("--source", metavar="FILE", help="take out the records that came from this file")
    one.add_argument("--solutions", metavar="NAME", help="take out the solutions of the position of the record of this name")


def add_variant(parser: argparse.ArgumentParser) -> None:
    parser.add_argument("--variant", choices=GAMES, default=GAMES[0], metavar="GAME",
                        help=f"the game of a first record without a header: {', '.join(GAMES)}")


def add_solver(parser: argparse.ArgumentParser) -> None:
    parser.add_argument("--solver", metavar="WORDS",
                        help="the solver's words, with {game}, {limit}, and {file} for a file with the board, which standard "
                        f"input has too; else '{FREECELL_SOLVER}'")
    parser.add_argument("--prover", metavar="WORDS",
                        help="those of a solver that is asked where the first finds nothing, and that tries all moves; without "
                        f"--solver '{FREECELL_PROVER}'")
    parser.add_argument("--limit", type=positive, default=100000, metavar="N",
                        help="how many boards the solver looks at, if it takes {limit}: 100000")
    parser.add_argument("--seconds", type=positive, default=0, metavar="N", help="end the solver after so long at a position")
    parser.add_argument("--jobs", type=positive, default=os.cpu_count() or 1, metavar="N",
                        help="how many positions are solved at a time: as many as there are processors")
    parser.add_argument("--unsolvable", type=pattern, default=UNSOLVABLE, metavar="PATTERN",
                        help="what the prover prints of a board without a solution, a regular expression; a group in it has how "
                        "many boards it looked at, which must be fewer than the limit; else as Freecell Solver prints it")


def add_which(parser: argparse.ArgumentParser) -> None:
    parser.add_argument("--name", metavar="GLOB", help="only records with such a name, as 'deal-1*'")
    parser.add_argument("--game", choices=GAMES, metavar="GAME", help="only records of this game")
    parser.add_argument("--least", type=positive, metavar="N", help="only those with a solution of at least so many moves")
    parser.add_argument("--most", type=positive, metavar="N", help="only those with a solution of at most so many moves")
    one = parser.add_mutually_exclusive_group()
    one.add_argument("--solved", action="store_true", help="only records with a solution")
    one.add_argument("--unsolved", action="store_true", help="only records without one")


def add_json(parser: argparse.ArgumentParser) -> None:
    parser.add_argument("--json", action="store_true", help="print JSON")


OPTIONS = {"files": add_files, "keys": add_keys, "forgotten": add_forgotten, "variant": add_variant, "solver": add_solver, "which": add_which, "json": add_json}


def parser() -> Parser:
    top = Parser(prog="fcanon-store", usage=USAGE, description=ABOUT, epilog=NOTES)
    top.add_argument("--version", action="version", version=f"fcanon-store {RELEASE}", help="print the release")
    subparsers = top.add_subparsers(dest="command", required=True, metavar="COMMAND", parser_class=Parser)
    for name, command in COMMANDS.items():
        it = subparsers.add_parser(name, prog=f"fcanon-store {name}", help=command.about,
                                   description=textwrap.fill(f"{command.about}.", WIDTH))
        it.add_argument("store", metavar="STORE", help="the store, a file")
        for option in command.options.split():
            OPTIONS[option](it)
        it.add_argument("--wait", type=positive, default=600, metavar="SECONDS",
                        help="how long to wait for another run that writes: 600")
    return top


def stop(number: int, _frame: object) -> NoReturn:
    raise Fault("ended by a signal; what was added is kept")


def main(words: List[str]) -> int:
    asked = parser().parse_args(words)
    command = COMMANDS[asked.command]
    for number in (signal.SIGINT, signal.SIGTERM, signal.SIGHUP):
        signal.signal(number, stop)
    store = None
    try:
        store = Store(asked.store, "read" if command.use == "see" else command.use, asked.wait)
        with store.snapshot() if command.use == "see" else nullcontext():
            return command.run(store, asked)
    except Fault as fault:
        print(f"fcanon-store: {fault}", file=sys.stderr)
    except sqlite3.Error as fault:
        print(f"fcanon-store: {store.fault(fault) if store else fault}", file=sys.stderr)
    except OSError as fault:
        print(f"fcanon-store: {fault.filename or asked.store}: {fault.strerror}", file=sys.stderr)
    finally:
        if store:
            store.close()
    return 3
