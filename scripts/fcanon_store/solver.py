"""Looks for solutions by a solver of any kind: a program that is given a board and prints what `import` reads. Each position is
a process of the solver; what these print is imported and played together.

Where it finds none another one may be asked, the prover, which tries all moves that the game allows. If that says that there
is no solution, and looked at fewer boards than its limit, the position is marked as said to have none: a solver's word is no
proof, and `fcanon-store close` takes proofs.
"""

import os
import re
import shlex
import shutil
import signal
import subprocess
import tempfile
import time
from concurrent.futures import FIRST_COMPLETED, Future, ThreadPoolExecutor, wait
from dataclasses import dataclass, field
from threading import Lock
from typing import Dict, Iterable, Iterator, List, NamedTuple, Optional, Sequence, Set

from . import Fault
from .boards import GAMES, Moves, Passage, text_of
from .collection import Piece, Reader, Row, printed, records_in
from .store import Limits, Position

# Freecell Solver: a preset that finds solutions soon, and moves of one card, whose search leaves nothing out. It says the same
# where it ends at its limit.
FREECELL_SOLVER = "fc-solve -g {game} -l lg -m -snx -mi {limit}"
FREECELL_PROVER = "fc-solve -g {game} -to 01ABCDE -m -snx -mi {limit}"
UNSOLVABLE = r"I could not solve this game\.\s+Total number of states checked is (\d+)\."
QUIET = {**os.environ, "FREECELL_SOLVER_QUIET": "1"}
BATCH, SECONDS = 100, 1.0  # what was printed of so many positions, or so long ago, is looked at


class Answer(NamedTuple):
    """What was found of a position: a solution that fcanon accepts, or why there is none; and by whom."""

    position: int
    solution: Optional[Moves]
    outcome: str  # as in the table `attempt`, or `solved`
    finder: str


class Said(NamedTuple):
    """What the solver at this place printed of a position, or nothing where its time was over."""

    position: Position
    place: int
    text: Optional[str]

    @property
    def board(self) -> str:
        return text_of(self.position.game, self.position.key, Passage.identity(self.position.game))


@dataclass
class Solver:
    """A solver, and a prover or none, by their words with {game}, {limit} and {file} in them; and what the prover prints of a
    board that has no solution, with the number of boards that it looked at."""

    templates: List[str]
    unsolvable: "re.Pattern[str]"
    limits: Limits
    reader: Reader
    running: Set[subprocess.Popen] = field(default_factory=set)
    lock: Lock = field(default_factory=Lock)
    is_stopped: bool = False

    def __post_init__(self) -> None:
        for template in self.templates:
            program = (shlex.split(template) or [""])[0]
            if not shutil.which(program):
                who = "Freecell Solver is not installed: " if program == "fc-solve" else ""
                raise Fault(f"{who}there is no {program or 'word of a solver'} in PATH")

    @property
    def name(self) -> str:
        return ", then ".join(self.templates)

    def words(self, template: str, game: int, file: str) -> List[str]:
        parts = {"{game}": GAMES[game], "{limit}": str(self.limits.boards), "{file}": file}
        words = shlex.split(template)
        for part, text in parts.items():
            words = [word.replace(part, text) for word in words]
        return words

    def ask(self, position: Position, place: int) -> Said:
        """What the solver at this place prints of a position, whose canonical board it is given."""
        board = Said(position, place, None).board
        with tempfile.NamedTemporaryFile("w", suffix=".board") as file:
            file.write(board)
            file.flush()
            return Said(position, place, self.said(self.words(self.templates[place], position.game, file.name), board))

    def answer(self, said: Said, rows: List[Row], has_list: bool) -> Answer:
        """What is found of a position by what was printed of it, and by the records that `import` made of that."""
        number, template = said.position.id, self.templates[said.place]
        for row in rows:
            if row.win and (row.game, row.key) == (said.position.game, said.position.key):
                return Answer(number, row.win, "solved", template)
        is_shown = said.place > 0 and said.text is not None and self.is_unsolvable(said.text)
        return Answer(number, None, "said unsolvable" if is_shown else "wrong" if has_list else "gave up", self.name)

    def answers(self, batch: Sequence[Said]) -> Iterator[Answer]:
        """What is found of each position. Where not each has its record, since what was printed of one is too much, they are looked
        at in two halves."""
        given = "".join(f"@ {GAMES[it.position.game]} {number}\n{it.board}{it.text or ''}\n" for number, it in enumerate(batch))
        try:
            made = printed(["import"], given.encode()).encode()
        except Fault:
            if len(batch) == 1:
                raise
            made = b""
        rows: Dict[str, List[Row]] = {str(number): [] for number in range(len(batch))}
        for row in self.reader.read(Piece(made, 1, 0, 1, GAMES[0])).rows:
            rows.setdefault(row.name, []).append(row)
        if len(batch) > 1 and not all(rows[str(number)] for number in range(len(batch))):
            yield from self.answers(batch[:len(batch) // 2])
            yield from self.answers(batch[len(batch) // 2:])
            return
        listed = {it.split(b"\n", 1)[0].split()[-1].decode() for it in records_in(made) if b"\n>" in it}
        for number, said in enumerate(batch):
            yield self.answer(said, rows[str(number)], str(number) in listed)

    def is_unsolvable(self, said: str) -> bool:
        found = self.unsolvable.search(said)
        return bool(found) and (not found.groups() or int(found[1]) < self.limits.boards)

    def said(self, words: List[str], board: str) -> Optional[str]:
        """What the solver prints, or nothing where its time is over."""
        with self.lock:
            if self.is_stopped:
                return None
            run = subprocess.Popen(words, stdin=subprocess.PIPE, stdout=subprocess.PIPE, stderr=subprocess.DEVNULL, text=True,
                                   errors="replace", env=QUIET, start_new_session=True)
            self.running.add(run)
        try:
            return run.communicate(board, self.limits.seconds or None)[0]
        except subprocess.TimeoutExpired:
            return None
        finally:
            self.end(run)

    def end(self, run: subprocess.Popen) -> None:
        """Ends a solver with all that it began."""
        if run.poll() is None:
            os.killpg(run.pid, signal.SIGKILL)
        run.communicate()
        with self.lock:
            self.running.discard(run)

    def stop(self) -> None:
        with self.lock:
            self.is_stopped = True
            for run in self.running:
                if run.poll() is None:
                    os.killpg(run.pid, signal.SIGKILL)


def answers(solver: Solver, positions: Iterable[Position], jobs: int) -> Iterator[Answer]:
    """What is found of positions, as it is found, by so many solvers at a time; the next solver is asked where one finds nothing."""
    positions = iter(positions)
    with ThreadPoolExecutor(jobs) as pool:
        pending: Set["Future[Said]"] = set()
        ready: List[Said] = []
        looked = time.monotonic()
        try:
            while True:
                while len(pending) < 2 * jobs and (it := next(positions, None)):
                    pending.add(pool.submit(solver.ask, it, 0))
                if not pending and not ready:
                    return
                done, pending = wait(pending, SECONDS, FIRST_COMPLETED)
                ready += (it.result() for it in done)
                if pending and len(ready) < BATCH and time.monotonic() - looked < SECONDS:
                    continue
                for said, answer in zip(ready, solver.answers(ready) if ready else ()):
                    if answer.solution or said.place + 1 == len(solver.templates):
                        yield answer
                    else:
                        pending.add(pool.submit(solver.ask, said.position, said.place + 1))
                ready, looked = [], time.monotonic()
        finally:
            for it in pending:
                it.cancel()
            solver.stop()
