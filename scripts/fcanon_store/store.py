"""A store: one file, a database of SQLite."""

import os
import sqlite3
import time
from contextlib import contextmanager, suppress
from pathlib import Path
from typing import Iterable, Iterator, List, NamedTuple, Optional, Sequence, Tuple
from urllib.parse import quote

from . import Fault, schema
from .boards import Moves
from .collection import Row

POSITION = "select id from position where game = ? and key = ?"

UNSOLVED = """from position where id > ? and not exists (select 1 from solution where position = id)
    and not exists (select 1 from closure where position = id)
    and not exists (select 1 from attempt where position = id and solver = ? and (outcome = 'said unsolvable'
        or boards >= ? and (seconds >= ? or seconds = 0) and (? or seconds = 0)))"""


class Added(NamedTuple):
    """What is new in a store."""

    positions: int = 0
    records: int = 0
    solved: int = 0  # positions that had no solution

    def plus(self, other: "Added") -> "Added":
        return Added(*(sum(pair) for pair in zip(self, other)))


class Position(NamedTuple):
    id: int
    game: int
    key: bytes


class Known(NamedTuple):
    """What is known of a position: the names of its records, its shortest solution, and of how many classes the closed collection
    has that proves it to have none."""

    names: List[str]
    solution: Optional[Moves]
    classes: Optional[int]


class Limits(NamedTuple):
    """How long a solver may look for a solution: at so many boards, and for so many seconds, 0 for any number."""

    boards: int
    seconds: int


def unsolved_by(solver: str, limits: Limits, after: int) -> Tuple:
    """What UNSOLVED is given."""
    return after, solver, limits.boards, limits.seconds, limits.seconds


class Store:
    """A store that is open: `make` also makes one where there is no file, `write` and `read` do not."""

    def __init__(self, path: str, use: str, wait: float):
        self.path, self.keeps_log = path, use != "read"
        if use != "make" and not os.path.exists(path):
            raise Fault(f"there is no store {path}: fcanon-store add makes one")
        try:
            self.table = self.opened(use, wait)
            self.begin(use, wait)
        except sqlite3.Error as fault:
            raise self.fault(fault)

    def opened(self, use: str, wait: float) -> sqlite3.Connection:
        """A connection; one that only reads wants no file beside the store where nobody writes."""
        mode = {"make": "rwc", "write": "rw", "read": "ro"}[use]
        place = f"file:{quote(os.path.abspath(self.path))}?mode={mode}"
        if use == "read" and not os.access(os.path.dirname(os.path.abspath(self.path)), os.W_OK):
            log = Path(self.path + "-wal")
            place += "" if log.exists() and log.stat().st_size else "&immutable=1"
        table = sqlite3.connect(place, uri=True, timeout=wait, isolation_level=None)
        table.execute("pragma page_size = 8192")  # of a new store, to which adding takes less time than with SQLite's 4096
        table.execute("pragma foreign_keys = on")
        table.execute("pragma cache_size = -65536")  # in KiB
        return table

    def begin(self, use: str, wait: float) -> None:
        """Makes an empty database a store, and refuses what is no store of this version."""
        if use == "make" and not self.number("application_id"):
            with self.writing():
                if not self.number("application_id") and not self.one("select count(*) from sqlite_master"):
                    schema.create(self.table)
        if self.number("application_id") != schema.MARK:
            raise Fault(f"{self.path} is a database of another program: name another file")
        version = self.number("user_version")
        if version != schema.VERSION:
            advice = "install a newer fcanon" if version > schema.VERSION else \
                "`fcanon-store export` of the fcanon that made it prints what `add` puts into a new one"
            raise Fault(f"{self.path} is a store of version {version}, and this fcanon-store knows {schema.VERSION}: {advice}")
        if use != "read":
            self.keep_log(wait)

    def keep_log(self, wait: float) -> None:
        """Has SQLite keep a log, beside which others can read. While another run begins to write, SQLite does not wait for it here
        as it does elsewhere, since both would read already."""
        ends = time.monotonic() + wait
        while True:
            try:
                self.table.execute("pragma journal_mode = wal")
                return
            except sqlite3.OperationalError as fault:
                if "is locked" not in str(fault) or time.monotonic() > ends:
                    raise
            time.sleep(0.01)

    def close(self) -> None:
        """Closes the store, whose log SQLite then writes into it; a fault of that loses nothing. Where no other run has it open it is
        one file again, beside which reading leaves none."""
        with suppress(sqlite3.Error):
            if self.keeps_log:
                self.table.execute("pragma busy_timeout = 0")
                self.table.execute("pragma journal_mode = delete")
        with suppress(sqlite3.Error):
            self.table.close()

    def number(self, pragma: str) -> int:
        return self.one(f"pragma {pragma}")

    def one(self, statement: str, given: Sequence = ()) -> int:
        return self.table.execute(statement, given).fetchone()[0]

    def fault(self, fault: sqlite3.Error) -> Fault:
        """What a fault of SQLite's means, and what to do."""
        said = str(fault)
        folder = os.path.dirname(os.path.abspath(self.path))
        if "unable to open" in said and os.path.exists(self.path) and not os.access(folder, os.W_OK):
            return Fault(f"{self.path} may not be written: nor may its folder, where SQLite keeps a log")
        for words, meaning in FAULTS.items():
            if words in said:
                return Fault(f"{self.path} {meaning}")
        return Fault(f"{self.path}: {said}")

    @contextmanager
    def writing(self) -> Iterator[None]:
        """All that is written within this is written, or nothing; no other run writes meanwhile."""
        try:
            self.table.execute("begin immediate")
            yield
            self.table.execute("commit")
        except sqlite3.Error as fault:
            raise self.fault(fault)
        finally:
            if self.table.in_transaction:  # SQLite itself ends it where a disk is full
                self.table.execute("rollback")

    @contextmanager
    def snapshot(self) -> Iterator[None]:
        """All that is read within this is of one moment, whoever writes meanwhile."""
        self.table.execute("begin")
        try:
            yield
        finally:
            self.table.execute("rollback")

    # ---- adding

    def add(self, rows: List[Row], source: Optional[str]) -> Added:
        """Adds records that came from this file."""
        with self.writing():
            positions = self.changed("insert or ignore into position (game, key) values (?, ?)",
                                     ((row.game, row.key) for row in rows))
            ids = self.ids_of(rows, positions)
            file = self.source(source)
            records = self.changed("insert or ignore into record values (?, ?, ?, ?, ?)", (
                (it, row.name, row.passage, file, row.line if file else None) for it, row in zip(ids, rows)))
            solved = sum(self.add_solution(it, row.win, None) for it, row in zip(ids, rows) if row.win)
        return Added(positions, records, solved)

    def changed(self, statement: str, given: Iterable[Sequence]) -> int:
        """Runs a statement with each of these, and returns how many rows of the store it changed."""
        return max(self.table.executemany(statement, given).rowcount, 0)

    def ids_of(self, rows: List[Row], new: int) -> Sequence[int]:
        """The positions of rows, of which so many are new: SQLite numbers new ones one after another."""
        if new == len(rows):
            last = self.one("select coalesce(max(id), 0) from position")
            return range(last - new + 1, last + 1)
        return [self.one(POSITION, (row.game, row.key)) for row in rows]

    def source(self, name: Optional[str]) -> Optional[int]:
        if name is None:
            return None
        self.table.execute("insert or ignore into source (name) values (?)", (name,))
        return self.one("select id from source where name = ?", (name,))

    def is_solved(self, position: int) -> bool:
        return bool(self.one("select exists (select 1 from solution where position = ?)", (position,)))

    def add_solution(self, position: int, it: Moves, finder: Optional[str]) -> bool:
        """Adds a list that wins from the canonical board, and returns whether it is the first of this position."""
        is_first = not self.is_solved(position)
        self.table.execute("insert or ignore into solution values (?, ?, ?, ?, ?)",
                           (position, it.length, it.form, it.moves, finder))
        return is_first

    def close_positions(self, keys: Iterable[Tuple[int, bytes]], classes: int, file: str) -> int:
        """Marks the positions that have one of these games and keys as unsolvable, by a closed collection of so many classes, and
        returns how many were not marked."""
        with self.writing():
            return self.changed("insert or ignore into closure select id, ?, date('now'), ? from position where game = ? and key = ?",
                                ((classes, file, *it) for it in keys))

    # ---- forgetting

    def forget_records(self, which: str, name: str) -> int:
        """Takes out the records for which this holds, and all that is known of positions without a record; returns how many they
        were."""
        alone = "not exists (select 1 from record where record.position = {})"
        with self.writing():
            many = self.changed(f"delete from record where {which}", [(name,)])
            for table in ("solution", "attempt", "closure"):
                self.table.execute(f"delete from {table} where {alone.format(f'{table}.position')}")
            self.table.execute(f"delete from position where {alone.format('position.id')}")
            self.table.execute("delete from source where not exists (select 1 from record where record.source = source.id)")
        return many

    def forget_solutions(self, name: str) -> int:
        """Takes out the solutions of the positions that have a record of this name, and returns how many they were."""
        with self.writing():
            return self.changed("delete from solution where position in (select position from record where name = ?)", [(name,)])

    # ---- looking up

    def known(self, game: int, key: bytes) -> Optional[Known]:
        found = self.table.execute(POSITION, (game, key)).fetchone()
        if found is None:
            return None
        names = self.table.execute("select distinct name from record where position = ? order by name", found)
        closed = self.table.execute("select classes from closure where position = ?", found).fetchone()
        return Known([name for name, in names], self.solution(found[0]), closed and closed[0])

    def solution(self, position: int) -> Optional[Moves]:
        """The shortest solution of a position."""
        found = self.table.execute("select form, moves from solution where position = ? order by length, form, moves limit 1",
                                   (position,)).fetchone()
        return found and Moves(*found)

    def records(self, where: str, given: Sequence) -> Iterator[Tuple]:
        """Records for which this holds, in the order of their positions: game, key, name, passage, position, file and line."""
        return self.table.execute(
            "select game, key, record.name, passage, record.position, source.name, line from record "
            "join position on position.id = record.position left join source on source.id = record.source "
            f"where {where} order by record.position, record.name", given)

    # ---- solving

    def unsolved(self, solver: str, limits: Limits, after: int) -> List[Position]:
        """Some positions after this one that have no solution and are not known to have none, and that this solver neither gave
        up within these limits nor said to have none."""
        rows = self.table.execute(f"select id, game, key {UNSOLVED} order by id limit 256", unsolved_by(solver, limits, after))
        return [Position(*row) for row in rows]

    def many_unsolved(self, solver: str, limits: Limits) -> int:
        """How many positions these are in all."""
        return self.one(f"select count(*) {UNSOLVED}", unsolved_by(solver, limits, 0))

    def tried(self, position: int, solver: str, limits: Limits, outcome: str) -> None:
        self.table.execute("insert or replace into attempt values (?, ?, ?, ?, ?)", (position, solver, *limits, outcome))

    # ---- counting and checking

    def stats(self, game: int) -> dict:
        """Figures of a game."""
        of_game = "position in (select id from position where game = ?)"
        least, most, mean = self.table.execute(
            f"select min(length), max(length), avg(length) from (select min(length) as length from solution where {of_game} "
            "group by position)", (game,)).fetchone()
        return {
            "positions": self.one("select count(*) from position where game = ?", (game,)),
            "records": self.one(f"select count(*) from record where {of_game}", (game,)),
            "solved": self.one(f"select count(distinct position) from solution where {of_game}", (game,)),
            "solutions": self.one(f"select count(*) from solution where {of_game}", (game,)),
            "unsolvable": self.one(f"select count(*) from closure where {of_game}", (game,)),
            "said unsolvable": self.one(
                f"select count(distinct position) from attempt where outcome = 'said unsolvable' and {of_game}", (game,)),
            "moves": None if least is None else {"least": least, "most": most, "mean": round(mean, 1)},
        }

    def faults_of_file(self) -> List[str]:
        """What SQLite finds wrong with the file."""
        found = [line for line, in self.table.execute("pragma integrity_check(10)") if line != "ok"]
        return found + [f"a row of {name} refers to nothing" for name, *_ in self.table.execute("pragma foreign_key_check")]

    def solutions(self) -> Iterator[Tuple]:
        """All solutions: of each its position, game, key, form and moves."""
        return self.table.execute("select it.id, game, key, form, moves from solution join position as it "
                                  "on it.id = solution.position order by it.id")


# What SQLite says, and what it means.
FAULTS = {
    "readonly database": "may not be written",
    "unable to open": "cannot be opened: it and its folder must be there and may be read",
    "is locked": "is locked by another program: try again when that has ended, or with --wait",
    "disk is full": "could not be written: the disk is full; what was added before is kept",
    "disk I/O error": "could not be written or read: disk I/O error; what was added before is kept",
    "malformed": "is damaged: `sqlite3 STORE .recover | sqlite3 NEW` saves what can be read",
    "file is not a database": "is a file of another program: name another file",
}
