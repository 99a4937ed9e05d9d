"""What the program fcanon does from standard input to standard output, over text in memory."""

import os
from typing import TYPE_CHECKING, NamedTuple, Sequence, Union, cast

from .errors import Error
from .names import COMMANDS, FORMATS, GAMES, LINES, Answer, Command, Format, Game, Lines

if TYPE_CHECKING:
    from ._calls import Buffer


class Printed(NamedTuple):
    """What a command prints, and of how many records. str() has it as text."""

    text: bytes
    """What the program prints to standard output."""
    said: bytes
    """What it prints to standard error: the notes of an import."""
    records: int
    """How many records were read; of an import, how many boards and refused blocks."""
    refused: int
    """How many of them are refused, and one more where "closed" finds a flaw."""

    @property
    def status(self) -> int:
        """The status that the program ends with: 0 where `refused` is 0, else 1."""
        return int(self.refused > 0)

    def __str__(self) -> str:
        return self.text.decode(errors="replace")


def run(
    command: Command,
    text: Union[str, "Buffer"],
    game: Game = "freecell",
    *,
    format: Format = "lines",
    any_size: bool = False,
) -> Printed:
    """What `fcanon COMMAND` prints of a collection, a str or bytes.

    `game` is that of records without a header, `format` is for "table", "count" and "closed" alone. At most
    65,536 records and 16 MiB are taken, unless `any_size` is set; more is an Error. Other threads run
    meanwhile.
    """
    from . import _runs

    numbers = _number(COMMANDS, command, "command"), _number(FORMATS, format, "format")
    seed = int.from_bytes(os.urandom(8), "little")
    return _printed(*_runs.run(*numbers, _game(game), any_size, seed, _bytes(text)))


def import_text(
    text: Union[str, "Buffer"], game: Game = "freecell", *, lines: Lines = "unsaid"
) -> Printed:
    """The collection that `fcanon import` makes of a text, a str or bytes, and its notes.

    `lines` says whether lines of cards that may be columns or rows are the ones or the others.
    """
    from . import _runs

    return _printed(*_runs.import_text(_game(game), _number(LINES, lines, "lines"), _bytes(text)))


def _number(words: Sequence[str], word: str, what: str) -> int:
    if word not in words:
        raise ValueError(f"{what} must be one of {', '.join(words)}, not {word!r}")
    return words.index(word)


def _game(word: str) -> int:
    if word not in GAMES:
        raise Error(Answer.NO_GAME)
    return GAMES.index(word)


def _bytes(text: Union[str, "Buffer"]) -> bytes:
    # Checkers of before 2023 know of few objects that they have a buffer.
    return text.encode() if isinstance(text, str) else bytes(memoryview(cast(bytes, text)))


def _printed(answer: int, text: bytes, said: bytes, records: int, refused: int) -> Printed:
    if answer == Answer.OUT_OF_MEMORY:
        raise MemoryError
    if answer:
        raise Error(answer)
    return Printed(text, said, records, refused)
