"""Canonical boards of FreeCell, Baker's Game and Eight Off, and moves carried to them.

>>> board = Board.deal(1)
>>> canonical, passage = board.canonicalize()
>>> canonical == canonical.canonical()
True
>>> passage.carry("3a")
'6a'
>>> run("show", str(board)).text == bytes(str(board), "ascii")
True

Two boards of a game have one canonical board if and only if an order of columns, an order of cells
and a renaming of suits that keeps the building rule lead from the one to the other. Boards and passages
never change, are equal, hashed and ordered by their games and bytes, and so are keys of sets and
dicts.

A move of one card is a str as "3a"; one of several cards is a str as "14v3" or "14". What a call of
the library refuses is raised as an Error, a ValueError with the reason and the place.

canonicalize_all, canonicalize_all_with_passages and hash_all take the bytes of many boards, 72
each: as bytes, a bytearray, a memoryview, or an array of numpy with 72 columns. They return bytes,
which numpy.frombuffer reads without a copy. Other threads run meanwhile.

find_flaw takes the keys of a closed list, 72 bytes each in ascending order, and gives None where it is
one; and the method is_unsolvable of a board says whether such keys show that no list of moves wins from it.

run does what a command of the program fcanon does over a whole collection, and import_text what
`fcanon import` does: in memory, and without the program.
"""

from ._calls import (
    Board, Passage, __version__, canonicalize_all, canonicalize_all_with_passages, find_flaw, hash_all,
)
from .commands import Printed, import_text, run
from .errors import Error
from .names import COMMANDS, GAMES, Answer, Command, Game

__all__ = [
    "COMMANDS",
    "GAMES",
    "Answer",
    "Board",
    "Command",
    "Error",
    "Game",
    "Passage",
    "Printed",
    "__version__",
    "canonicalize_all",
    "canonicalize_all_with_passages",
    "find_flaw",
    "hash_all",
    "import_text",
    "run",
]
