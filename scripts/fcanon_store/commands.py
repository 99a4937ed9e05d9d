"""What the command fcanon-store does."""

import argparse
import json
import os
import sys
import time
from contextlib import nullcontext
from typing import BinaryIO, ContextManager, Iterable, Iterator, List, Optional, Tuple

from . import Fault
from .boards import BOARD_BYTES, GAMES, Moves, Passage, text_of
from .collection import Piece, Reader, Row, batches, library
from .solver import FREECELL_PROVER, FREECELL_SOLVER, Answer, Solver, answers
from .store import Added, Limits, Position, Store

BATCH = 1000  # records that are looked at in one go


def say(lines: Iterable[str]) -> None:
    """Prints lines, all of which are written when this returns."""
    try:
        for line in lines:
            sys.stdout.write(line)
        sys.stdout.flush()
    except OSError as fault:
        os.dup2(os.open(os.devnull, os.O_WRONLY), sys.stdout.fileno())  # else Python tries once more as it ends
        raise Fault(f"standard output could not be written: {fault.strerror}")


def opened(path: str) -> ContextManager[BinaryIO]:
    """A file of records; `-` is standard input."""
    if path == "-":
        return nullcontext(sys.stdin.buffer)
    try:
        return open(path, "rb")
    except OSError as fault:
        raise Fault(f"{path} could not be read: {fault.strerror}")


def shown(path: str) -> str:
    """The name of a file as a text, whatever bytes it has."""
    return os.fsencode(path).decode(errors="replace")


# ---- adding and looking up


def add(store: Store, words: argparse.Namespace) -> int:
    reader, total, many, refused = Reader(), Added(), 0, 0
    for path in words.files or ["-"]:
        with opened(path) as stream:
            for read in reader.reads(stream, words.variant):
                total = total.plus(store.add(read.rows, None if path == "-" else shown(path)))
                many, refused = many + len(read.rows), refused + len(read.refused)
                say(read.refused)
    say([f"records {many} new positions {total.positions} new records {total.records} newly solved {total.solved}\n"])
    return 1 if refused else 0


def looked_up(store: Store, row: Row) -> str:
    """What is printed of a record."""
    known = store.known(row.game, row.key)
    passage = Passage.read(row.passage)
    lines = [f"@ {GAMES[row.game]} {row.name}", text_of(row.game, row.key, passage).rstrip("\n"),
             " ".join(["# known as", *known.names]) if known else "# unknown"]
    if known and known.classes:
        lines.append(f"# unsolvable: {known.classes} classes are closed")
    if known and known.solution:
        lines.append(str(passage.to_own(known.solution)))
    return "\n".join([*lines, ""])


def look(store: Store, words: argparse.Namespace) -> int:
    refused = 0
    for path in words.files or ["-"]:
        with opened(path) as stream:
            for read in Reader().reads(stream, words.variant):
                say(looked_up(store, row) for row in read.rows)
                say(read.refused)
                refused += len(read.refused)
    return 1 if refused else 0


# ---- solving


class Progress:
    """A line at a terminal that says how far a run is."""

    def __init__(self, store: Store, solver: str, limits: Limits) -> None:
        self.is_shown, self.began, self.shown = sys.stderr.isatty(), time.monotonic(), 0.0
        self.many = store.many_unsolved(solver, limits) if self.is_shown else 0
        self.counts = {"solved": 0, "said unsolvable": 0, "gave up": 0, "wrong": 0}

    def count(self, answer: Answer) -> None:
        self.counts[answer.outcome] += 1
        now = time.monotonic()
        if self.is_shown and now - self.shown > 0.2:
            self.shown = now
            done = sum(self.counts.values())
            self.write(f"{done} of {self.many}, {done / max(now - self.began, 0.1):.1f} a second: {self}")

    def write(self, text: str) -> None:
        print(f"\r{text}\x1b[K", end="", file=sys.stderr, flush=True)

    def end(self) -> None:
        if self.is_shown and self.shown:
            self.write("")

    def __str__(self) -> str:
        return " ".join(f"{name} {count}" for name, count in self.counts.items())


def unsolved(store: Store, solver: str, limits: Limits) -> Iterator[Position]:
    """The positions to be solved, but for those that another run has solved when their turn comes."""
    after = 0
    while found := store.unsolved(solver, limits, after):
        yield from (it for it in found if not store.is_solved(it.id))
        after = found[-1].id


def solve(store: Store, words: argparse.Namespace) -> int:
    limits = Limits(words.limit, words.seconds)
    templates = [words.solver or FREECELL_SOLVER, words.prover or ("" if words.solver else FREECELL_PROVER)]
    solver = Solver([it for it in templates if it], words.unsolvable, limits, Reader())
    progress = Progress(store, solver.name, limits)
    try:
        for answer in answers(solver, unsolved(store, solver.name, limits), words.jobs):
            with store.writing():
                if answer.solution:
                    is_new = store.add_solution(answer.position, answer.solution, answer.finder)
                else:
                    is_new = not store.is_solved(answer.position)
                    store.tried(answer.position, answer.finder, limits, answer.outcome)
            if is_new:
                progress.count(answer)
    finally:
        progress.end()
    say([f"{progress}\n"])
    return 0


# ---- closing


def close(store: Store, words: argparse.Namespace) -> int:
    """Marks the positions of keys as unsolvable, once the library accepted these as those of a closed list."""
    reader = library()
    if not reader:
        raise Fault("closing needs fcanon's library for Python: docs/LIBRARY.md says how it is installed")
    status, marked, classes = 0, 0, 0
    for path in words.keys:
        with opened(path) as stream:
            data = stream.read()
        game = next((number for number, name in enumerate(GAMES) if path.endswith(f".{name}.keys")), None)
        if game is None or not reader.is_closed(data, GAMES[game]):
            say([f"not closed: {escaped(shown(path))}\n"])
            status = 1
            continue
        keys = [data[at:at + BOARD_BYTES] for at in range(0, len(data), BOARD_BYTES)]
        marked += store.close_positions(((game, key) for key in keys), len(keys), shown(path))
        classes += len(keys)
    say([f"classes {classes} newly unsolvable {marked}\n"])
    return status


# ---- forgetting


def forget(store: Store, words: argparse.Namespace) -> int:
    """Takes out records, and with the last record of a position what is known of it; or the solutions of a record's position."""
    if words.solutions is not None:
        many, what = store.forget_solutions(words.solutions), "solutions"
    elif words.source is not None:
        many, what = store.forget_records("source = (select id from source where name = ?)", words.source), "records"
    else:
        many, what = store.forget_records("name = ?", words.record), "records"
    say([f"{what} {many} taken out\n"])
    return 0 if many else 1


# ---- export, query, stats


def condition(words: argparse.Namespace) -> Tuple[str, List]:
    """What must hold of the records that are asked for, and what it is given."""
    has_solution = "exists (select 1 from solution where solution.position = position.id)"
    shortest = "(select min(length) from solution where solution.position = position.id)"
    parts = {
        "game = ?": None if words.game is None else GAMES.index(words.game),
        "record.name glob ?": words.name,
        f"{shortest} >= ?": words.least,
        f"{shortest} <= ?": words.most,
    }
    wanted = [(part, value) for part, value in parts.items() if value is not None]
    if words.solved or words.unsolved:
        wanted.append((has_solution if words.solved else f"not {has_solution}", None))
    return " and ".join(["true", *(part for part, _ in wanted)]), [value for _, value in wanted if value is not None]


def export(store: Store, words: argparse.Namespace) -> int:
    """Prints records, each with the shortest solution, as it is played on its own board."""
    for batch in batches(store.records(*condition(words)), BATCH):
        say(exported(store, *columns[:5]) for columns in batch)
    return 0


def exported(store: Store, game: int, key: bytes, name: str, passage: str, position: int) -> str:
    way, solution = Passage.read(passage), store.solution(position)
    text = f"@ {GAMES[game]} {name}\n" + text_of(game, key, way)
    return text + (f"{way.to_own(solution)}\n" if solution else "")


def query(store: Store, words: argparse.Namespace) -> int:
    """Prints a line for each record: its name, game, position, how many moves solve it, its file and line."""
    for batch in batches(store.records(*condition(words)), BATCH):
        say(queried(store, words.json, *columns) for columns in batch)
    return 0


def queried(store: Store, as_json: bool, game: int, key: bytes, name: str, passage: str, position: int,
            source: Optional[str], line: Optional[int]) -> str:
    solution = store.solution(position)
    found = {"name": name, "game": GAMES[game], "position": position, "moves": solution and solution.length,
             "source": source, "line": line}
    if as_json:
        return json.dumps(found) + "\n"
    return "\t".join("-" if it is None else escaped(str(it)) for it in found.values()) + "\n"


def escaped(text: str) -> str:
    """A text in which %XX stands for each byte that would part fields or lines, and for %."""
    return "".join(f"%{ord(sign):02X}" if sign == "%" or ord(sign) < 32 or ord(sign) == 127 else sign for sign in text)


def stats(store: Store, words: argparse.Namespace) -> int:
    found = {name: store.stats(game) for game, name in enumerate(GAMES)}
    if words.json:
        say([json.dumps(found) + "\n"])
        return 0
    for name, figures in found.items():
        moves = figures.pop("moves")
        line = " ".join([name, *(f"{what} {many}" for what, many in figures.items())])
        say([line + (" moves {least} to {most}, mean {mean}".format(**moves) if moves else "") + "\n"])
    return 0


# ---- check


def check(store: Store, words: argparse.Namespace) -> int:
    """Plays each solution once more, and finds each record's canonical board anew."""
    faults = store.faults_of_file()
    say(f"{fault}\n" for fault in faults)
    if faults:
        return 1
    reader, counts = Reader(), {"solutions": 0, "records": 0}
    wrong = 0
    for what, items in (("solutions", solutions_to_check(store)), ("records", records_to_check(store))):
        for batch in batches(items, BATCH):
            found = list(wrong_in(reader, batch, what == "solutions"))
            say(f"position {position}: {fault}\n" for position, fault in found)
            counts[what], wrong = counts[what] + len(batch), wrong + len(found)
    say(["solutions {solutions} records {records}".format(**counts) + f" faults {wrong}\n"])
    return 1 if wrong else 0


def solutions_to_check(store: Store) -> Iterator[Tuple[Position, str]]:
    """Each position with a solution, and its record: the canonical board, and the solution."""
    for position, game, key, form, moves in store.solutions():
        text = text_of(game, key, Passage.identity(game))
        yield Position(position, game, key), f"@ {GAMES[game]} {position}\n{text}{Moves(form, moves)}\n"


def records_to_check(store: Store) -> Iterator[Tuple[Position, str]]:
    """Each record, with its position."""
    for game, key, name, passage, position, *_ in store.records("true", ()):
        text = text_of(game, key, Passage.read(passage))
        yield Position(position, game, key), f"@ {GAMES[game]} {name}\n{text}"


def wrong_in(reader: Reader, batch: List[Tuple[Position, str]], must_win: bool) -> Iterator[Tuple[int, str]]:
    """The positions of those records that fcanon refuses, whose canonical board is another one, or whose list does not win."""
    text = "".join(record for _, record in batch)
    read = reader.read(Piece(text.encode(), 1, 0, 1, GAMES[0]))
    if read.refused and len(batch) == 1:
        yield batch[0][0].id, "fcanon refuses its board or its list"
    elif read.refused:
        for one in batch:
            yield from wrong_in(reader, [one], must_win)
    for (position, _), row in zip(batch, [] if read.refused else read.rows):
        if (row.game, row.key) != position[1:]:
            yield position.id, "its key is not that of the board"
        elif must_win and not row.win:
            yield position.id, "a solution does not win"
