"""Canonical boards, passages, and lists of moves carried through them.

A board is in the 72 bytes that fcanon.h describes: how many clubs, diamonds, hearts and spades are home, the cards in eight
cells, the lengths of eight columns, and their cards, end to end. A card is 1 to 52, from the ace of clubs to the king of spades,
and 0 is none. A canonical board is the key of its position.
"""

from functools import lru_cache
from typing import Dict, NamedTuple, Tuple

# The games, each by its number, in a store as in fcanon.h. tools/tables wrote this from fcanon.h, to the next empty line.
GAMES = ("freecell", "bakers_game", "eight_off")
RELEASE = "1.0.0"
CELLS = ("abcd", "abcd", "abcdefgk")  # of each game the letters of its cells

COLUMNS = "12345678"
SUITS = "CDHS"
TOPS = "0A23456789TJQK"
CARDS = ("-", *(rank + suit for rank in TOPS[1:] for suit in SUITS))
NUMBERS = {card: number for number, card in enumerate(CARDS)}
BOARD_BYTES = 72


class Moves(NamedTuple):
    """A list of moves: `>` where each takes one card, `>>` where it may take several; and the moves, a blank between two."""

    form: str
    moves: str

    def __str__(self) -> str:
        return f"{self.form} {self.moves}" if self.moves else self.form

    @property
    def length(self) -> int:
        return len(self.moves.split())


class Passage(NamedTuple):
    """A way from a board to its canonical one: what clubs, diamonds, hearts and spades become, and for each place of the
    canonical board the column and the cell that comes there."""

    suits: str
    columns: str
    cells: str

    @classmethod
    def read(cls, text: str) -> "Passage":
        return cls(*text.split(" "))

    @classmethod
    def identity(cls, game: int) -> "Passage":
        return cls(SUITS, COLUMNS, CELLS[game])

    def __str__(self) -> str:
        return " ".join(self)

    def to_canonical(self, it: Moves) -> Moves:
        """The list of the same cards on the canonical board."""
        return renamed(it, self.columns + self.cells, COLUMNS + cells_like(self))

    def to_own(self, it: Moves) -> Moves:
        """The list of the same cards on the board from which the passage leads."""
        return renamed(it, COLUMNS + cells_like(self), self.columns + self.cells)


def cells_like(passage: Passage) -> str:
    return CELLS[2] if len(passage.cells) == 8 else CELLS[0]


def renamed(it: Moves, old: str, new: str) -> Moves:
    """The list with other columns and cells; how many cards a move says, after `v`, stays."""
    names = str.maketrans(old, new)
    if "v" not in it.moves:
        return Moves(it.form, it.moves.translate(names))
    return Moves(it.form, " ".join(move[:2].translate(names) + move[2:] for move in it.moves.split()))


@lru_cache(maxsize=None)
def own_cards(suits: str) -> Tuple[str, ...]:
    """The texts of cards, by their numbers on the canonical board, as they are on a board whose suits become these."""
    own: Dict[str, str] = dict(zip(suits, SUITS))
    return ("-", *(card[0] + own[card[1]] for card in CARDS[1:]), *"?" * 203)  # what no card's number is, fcanon refuses


def text_of(game: int, board: bytes, passage: Passage) -> str:
    """The printed text of the board from which the passage leads to this canonical one."""
    cards = own_cards(passage.suits)
    tops = {suit: TOPS[board[SUITS.index(it)]:][:1] for suit, it in zip(SUITS, passage.suits)}
    held = dict(zip(passage.cells, board[4:12]))
    columns, start = {}, 20
    for column, length in zip(passage.columns, board[12:20]):
        columns[column] = " ".join([":", *map(cards.__getitem__, board[start:start + length])])
        start += length
    return "\n".join([
        "Foundations: " + " ".join(f"{suit}-{tops[suit]}" for suit in "HCDS"),
        "Freecells: " + " ".join(cards[held[cell]] for cell in CELLS[game]),
        *(columns[column] for column in COLUMNS),
        "",
    ])


def board_of(line: str) -> bytes:
    """A canonical board, from its text in one line, as `fcanon table` prints it."""
    foundations, cells, *columns = line.split("  ")
    tops = {word[0]: TOPS.index(word[2]) for word in foundations.split()[1:]}
    front = [*(tops[suit] for suit in SUITS), *map(NUMBERS.__getitem__, cells.split()[1:])]
    cards = " ".join(columns).replace(":", "").split()
    return bytes([*front, *[0] * (12 - len(front)), *(column.count(" ") for column in columns),
                  *map(NUMBERS.__getitem__, cards)]).ljust(BOARD_BYTES, b"\0")
