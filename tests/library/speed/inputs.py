"""The collections on which instructions are counted, the same ones each time they are made.

Nothing here is taken from the program. Deals are by chance.
"""

from lib.boards import (BAKERS_GAME, EIGHT_OFF, FREECELL, Board, board_text, card_text, late_board, may_fill,
                        may_go_on)
from lib.collection import Draws, eight_off_board, put

RECORDS = 400
PLAYED = 9  # boards of play on each deal
LISTS = 20
RUNS_THERE_AND_BACK = ">> 15 26 37 48 51 62 73 84" + 4 * " 15 26 37 48 51 62 73 84" + "\n"


def deal(draws, game):
    cards = draws.order(52)
    return Board((0,) * 4, (None,) * len(game.cells), tuple(cards[at::8] for at in range(8)))


def eight_off_deal(draws):
    return eight_off_board(deal(draws, FREECELL))


def taken(board):
    """Each card that can be moved, with the board without it."""
    for at, column in enumerate(board.columns):
        if column:
            yield column[-1], board._replace(columns=put(board.columns, at, column[:-1]))
    for at, card in enumerate(board.cells):
        if card is not None:
            yield card, board._replace(cells=put(board.cells, at, None))


def placed(game, card, board):
    """The boards with this card wherever the game allows it."""
    for at, column in enumerate(board.columns):
        if may_go_on(game, card, column[-1]) if column else may_fill(game, card):
            yield board._replace(columns=put(board.columns, at, (*column, card)))
    for at, held in enumerate(board.cells):
        if held is None:
            yield board._replace(cells=put(board.cells, at, card))
    if board.heights[card % 4] == card // 4:
        yield board._replace(heights=put(board.heights, card % 4, card // 4 + 1))


def play(draws, game, board):
    """The board, and boards after one move by chance more each, as long as there is one."""
    yield board
    for _ in range(PLAYED):
        after = [it for card, rest in taken(board) for it in placed(game, card, rest) if it != board]
        if not after:
            return
        board = draws.one_of(after)
        yield board


def runs():
    """Four runs from the king to the five, each in a column, and four empty columns."""
    columns = [[4 * rank + pair[rank % 2] for rank in range(12, 3, -1)] for pair in ((0, 1), (1, 0), (2, 3), (3, 2))]
    return Board((4,) * 4, (None,) * 4, (*map(tuple, columns), *[()] * 4))


def columns_alone(board):
    return "".join(" ".join(map(card_text, column)) + "\n" for column in board.columns)


def rows_alone(board):
    rows = (" ".join(card_text(column[at]) for column in board.columns if at < len(column)) for at in range(7))
    return "".join(row + "\n" for row in rows)


def as_solver(board):
    """As Freecell Solver prints boards in which no card is home or in a cell."""
    columns = "".join(f": {line}\n" for line in columns_alone(board).replace("T", "10").splitlines())
    return f"Foundations: H-0 C-0 D-0 S-0 \nFreecells:{16 * ' '}\n{columns}"


def late(draws):
    board, moves = late_board(deal(draws, FREECELL).columns)
    return board_text(board) + " ".join([">", *moves]) + "\n"


def collection(game, texts):
    return "".join(f"@ {game.word} n{number}\n{text}" for number, text in enumerate(texts, 1))


def collections():
    """Each collection, by its name: its text and how many records it has."""
    draws, many = Draws(), range(RECORDS)
    few = range(RECORDS // (1 + PLAYED))
    made = {
        "deals": (FREECELL, [board_text(deal(draws, FREECELL)) for _ in many]),
        "play": (FREECELL, [board_text(it) for _ in few for it in play(draws, FREECELL, deal(draws, FREECELL))]),
        "bakers_game": (BAKERS_GAME, [board_text(deal(draws, BAKERS_GAME)) for _ in many]),
        "eight_off": (EIGHT_OFF, [board_text(it) for _ in few for it in play(draws, EIGHT_OFF, eight_off_deal(draws))]),
        "columns": (FREECELL, [columns_alone(deal(draws, FREECELL)) for _ in many]),
        "solver": (FREECELL, [as_solver(deal(draws, FREECELL)) for _ in many]),
        "lists": (FREECELL, [late(draws) for _ in many]),
        "runs": (FREECELL, [board_text(runs()) + RUNS_THERE_AND_BACK] * LISTS),
        "rows": (FREECELL, [rows_alone(deal(draws, FREECELL)) for _ in many]),
    }
    return {name: (collection(game, texts), len(texts)) for name, (game, texts) in made.items()}
