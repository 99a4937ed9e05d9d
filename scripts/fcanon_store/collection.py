"""The records of a collection, read by fcanon's library where Python has it, and else by the program.

A collection is cut before headers into pieces. The library reads a piece whose records are all accepted; any other is
read by the program, which says what is refused, and where.
"""

import os
import re
import shutil
import subprocess
import sys
from itertools import accumulate, islice
from pathlib import Path
from types import ModuleType
from typing import BinaryIO, Callable, Dict, Iterator, List, NamedTuple, Optional, Tuple

from . import Fault
from .boards import BOARD_BYTES, CELLS, GAMES, Moves, Passage, board_of

PIECE_BYTES = 1 << 21  # what is read at once; a record is shorter
RECORD_BYTES = 1 << 16
MOST_MOVES = 4096
HEADER = re.compile(rb"@[ \t]*(freecell|bakers_game|eight_off)(?:[ \t]+([!-~]{1,64}))?[ \t]*\r?(?:\n|\Z)", re.I)
SKIPPED = re.compile(rb"[ \t]*(?:#[^\n]*)?\r?\Z")
NOTHING = re.compile(rb"(?:[ \t]*(?:#[^\n]*|\r?)(?:\n|\Z))*\Z")


class Piece(NamedTuple):
    """Some records of a collection: their text, the number of the first, and its place in bytes and in lines."""

    text: bytes
    number: int
    byte: int
    line: int
    game: str  # of a first record without a header


class Row(NamedTuple):
    """What is read of an accepted record."""

    name: str
    game: int
    key: bytes  # its canonical board
    passage: str
    win: Optional[Moves]  # its first list that wins, as it is played on the canonical board
    line: int


class Read(NamedTuple):
    rows: List[Row]
    refused: List[str]  # a line for each refused record
    many: int  # how many records these are


class NotPlain(Exception):
    """The program must say what this record is."""


def records_in(text: bytes) -> List[bytes]:
    """The records of a piece, each with its header; what comes before the first header is one, if there is anything."""
    records = [b"@" + it + b"\n" for it in text.split(b"\n@")]
    records[0] = records[0][1:]
    records[-1] = records[-1][:-1]
    return records if records[0] else records[1:]


def lines_of(records: List[bytes], first: int) -> Iterator[int]:
    """The line in which each of these records begins, the first of them in this one."""
    return accumulate((record.count(b"\n") for record in records), initial=first)


# ---- by the library


def move_patterns(game: int) -> Dict[str, "re.Pattern[bytes]"]:
    """What a line of each form must be, so that each of its words is a move of the game."""
    cells = CELLS[game]
    one = f"[1-8{cells}][1-8{cells}h]"
    several = f"[1-8][1-8](?:v[1-9a-d])?|[1-8][{cells}h]|[{cells}][1-8{cells}h]"
    return {form: re.compile(rf"{form}((?:[ \t\r]*(?:{move})(?=[ \t\r]|\Z))*[ \t\r]*)\Z".encode(), re.I)
            for form, move in ((">", one), (">>", several))}


class Plain(NamedTuple):
    """A record that the library can read."""

    name: str
    game: int
    board: bytes
    win: Optional[Moves]  # as it is played on its own board


class Library:
    """Reads by the Python package fcanon."""

    def __init__(self, calls: ModuleType):
        self.board, self.error, self.canonicalize = calls.Board, calls.Error, calls.canonicalize_all_with_passages
        self.find_flaw = calls.find_flaw
        self.play = {">": calls.Board.play, ">>": calls.Board.play_run}
        self.patterns = [move_patterns(game) for game in range(len(GAMES))]
        self.numbers = {name.encode(): game for game, name in enumerate(GAMES)}

    def is_closed(self, keys: bytes, game: str) -> bool:
        """Whether keys are those of a closed list, from whose boards no list of moves wins."""
        return len(keys) % BOARD_BYTES == 0 and not self.find_flaw(keys, game)

    def read(self, piece: Piece) -> Optional[Read]:
        """The rows of a piece, or nothing where a record is not plain."""
        records, line = records_in(piece.text), piece.line
        if records and records[0][:1] != b"@" and NOTHING.match(records[0]):
            line += records.pop(0).count(b"\n")
        try:
            plain = [self.plain(record, number, piece.game) for number, record in enumerate(records, piece.number)]
        except (NotPlain, self.error):
            return None
        ways = self.ways(plain)
        rows = [Row(name, game, key, passage, win and Passage.read(passage).to_canonical(win), at)
                for (name, game, _, win), (key, passage), at in zip(plain, ways, lines_of(records, line))]
        return Read(rows, [], len(rows))

    def plain(self, record: bytes, number: int, first_game: str) -> Plain:
        header = HEADER.match(record)
        if len(record) > RECORD_BYTES or not header and record[:1] in (b"@", b">"):
            raise NotPlain
        game = self.numbers[header[1].lower()] if header else GAMES.index(first_game)
        start = header.end() if header else 0
        end = record.find(b"\n>", max(start - 1, 0)) + 1 or len(record)
        board = self.board(record[start:end], GAMES[game])
        name = header[2].decode() if header and header[2] else str(number)
        return Plain(name, game, bytes(board), self.win(board, game, record[end:]) if end < len(record) else None)

    def win(self, board: object, game: int, lists: bytes) -> Optional[Moves]:
        """The first list in these lines that wins from the board."""
        found = None
        for line in lists.split(b"\n"):
            if SKIPPED.match(line):
                continue
            form = ">>" if line[:2] == b">>" else ">"
            match = self.patterns[game][form].match(line)
            words = match[1].decode().lower().split() if match else []
            if not match or len(words) > MOST_MOVES:
                raise NotPlain
            if not found and self.wins(board, words, self.play[form]):
                found = Moves(form, " ".join(words))
        return found

    def wins(self, board: object, words: List[str], play: Callable) -> bool:
        try:
            for word in words:
                board = play(board, word)
        except self.error:
            return False
        return board.is_won

    def ways(self, plain: List[Plain]) -> List[Tuple[bytes, str]]:
        """The canonical boards of boards, and the passages to these, in one call for each game."""
        found: List[Tuple[bytes, str]] = [(b"", "")] * len(plain)
        for game, name in enumerate(GAMES):
            places = [at for at, it in enumerate(plain) if it.game == game]
            boards, passages = self.canonicalize(b"".join([plain[at].board for at in places]), name)
            keys = (boards[at:at + BOARD_BYTES] for at in range(0, len(boards), BOARD_BYTES))
            for at, way in zip(places, zip(keys, texts_of_passages(passages, game))):
                found[at] = way
        return found


def texts_of_passages(passages: bytes, game: int) -> Iterator[str]:
    """The texts of passages, of which each is 20 bytes: four suits, eight columns, eight cells."""
    cells = len(CELLS[game])
    suits, columns, letters = (passages.translate(names.encode().ljust(256)).decode()
                               for names in ("CDHS", "12345678", CELLS[game]))
    for at in range(0, len(passages), 20):
        yield f"{suits[at:at + 4]} {columns[at + 4:at + 12]} {letters[at + 12:at + 12 + cells]}"


# ---- by the program


def program() -> str:
    """The program beside the script that runs, or in PATH."""
    beside = Path(sys.argv[0]).resolve().with_name("fcanon")
    return str(beside) if os.access(beside, os.X_OK) else shutil.which("fcanon") or "fcanon"


def printed(words: List[str], given: bytes) -> str:
    """What fcanon prints of these bytes."""
    try:
        run = subprocess.run([program(), *words], input=given, stdout=subprocess.PIPE, stderr=subprocess.PIPE)
    except OSError as fault:
        raise Fault(f"fcanon did not run: {fault.strerror}")
    if run.returncode not in (0, 1):
        said = run.stderr.decode(errors="replace").strip().splitlines()
        raise Fault(f"fcanon gave up: {said[0] if said else f'status {run.returncode}'}")
    return run.stdout.decode()


class Program:
    """Reads by the program fcanon."""

    def read(self, piece: Piece) -> Read:
        words = ["--variant", piece.game, "--from-record", str(piece.number), "--from-byte", str(piece.byte)]
        lines = printed(["table", *words], piece.text).splitlines()
        columns = [None if line.startswith("# refused ") else line.split("\t") for line in lines]
        lists: Iterator[List[str]] = iter(())
        if any(it and it[7] != "-" for it in columns):
            lists = lists_in(printed(["canon", *words], piece.text))
        records = records_in(piece.text)
        begins = islice(lines_of(records, piece.line), len(records) - len(lines), None)  # a front with nothing in it has no line
        rows = [self.row(it, next(lists, []), line) for it, line in zip(columns, begins) if it]
        return Read(rows, [line + "\n" for line in lines if line.startswith("# refused ")], len(lines))

    def row(self, columns: List[str], lists: List[str], line: int) -> Row:
        name, game, board, suits, order, cells, _, win = columns
        found = None if win == "-" else Moves(*lists[int(win) - 1].partition(" ")[::2])
        return Row(name, GAMES.index(game), board_of(board), f"{suits} {order} {cells}", found, line)


def lists_in(canonical: str) -> Iterator[List[str]]:
    """The lists of each accepted record in what `canon` prints."""
    lists: Optional[List[str]] = None
    for line in canonical.splitlines():
        if line.startswith("Foundations:"):
            if lists is not None:
                yield lists
            lists = []
        elif line.startswith(">") and lists is not None:
            lists.append(line)
    if lists is not None:
        yield lists


# ---- by either


def library() -> Optional[Library]:
    """The library, if Python has its package, or the package is installed beside the program."""
    beside = Path(sys.argv[0]).resolve().parent.parent / "share" / "fcanon" / "python"
    if beside.is_dir() and str(beside) not in sys.path:
        sys.path.append(str(beside))
    try:
        import fcanon
        return Library(fcanon)
    except (ImportError, AttributeError):
        return None


class Reader:
    """Reads pieces by the library, if it is here, and else by the program."""

    def __init__(self) -> None:
        self.library, self.program = library(), Program()

    def read(self, piece: Piece) -> Read:
        return self.library and self.library.read(piece) or self.program.read(piece)

    def reads(self, stream: BinaryIO, game: str) -> Iterator[Read]:
        """What is read of each piece of a collection."""
        number, byte, line = 1, 0, 1
        for text in texts_in(stream):
            read = self.read(Piece(text, number, byte, line, game))
            yield read
            number, byte, line = number + read.many, byte + len(text), line + text.count(b"\n")


def texts_in(stream: BinaryIO) -> Iterator[bytes]:
    """A collection in pieces, which end before headers; a record that is longer than any may be ends one too."""
    rest = b""
    while chunk := stream.read(PIECE_BYTES):
        rest += chunk
        if len(chunk) < PIECE_BYTES:  # as is read at the end alone
            break
        end = rest.rfind(b"\n@") + 1 or (len(rest) if len(rest) > PIECE_BYTES else 0)
        if end:
            yield rest[:end]
        rest = rest[end:]
    if rest:
        yield rest


def batches(items: Iterator, size: int) -> Iterator[list]:
    while batch := list(islice(items, size)):
        yield batch
