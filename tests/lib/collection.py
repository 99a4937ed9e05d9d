"""A collection of boards with their groups and solutions, the same one each time it is made.

Its boards are deals, and boards near the end of play. Those are found by playing backwards from the won board, so that
a solution is known. Each record is the image of one of them under a passage. About half of the lists begin with `>>`.
"""

from typing import NamedTuple, Optional

from lib.boards import (BAKERS_GAME, COLUMNS, EIGHT_OFF, FREECELL, Board, Game, Passage, board_text, carried,
                        carried_moves, least, may_fill, may_go_on, renamings)

RECORDS = 300
EACH = 5  # of so many records one has a solution
LATE_BOARDS = 12  # of each game
DEALS = 20
EIGHT_OFF_DEALS = 10


class Draws:
    """Numbers of a linear congruence."""

    def __init__(self):
        self.state = 1

    def below(self, most):
        self.state = (self.state * 6364136223846793005 + 1442695040888963407) % 2**64
        return (self.state >> 33) % most

    def one_of(self, items):
        return items[self.below(len(items))]

    def order(self, count):
        """A permutation of the numbers below this one."""
        items = list(range(count))
        for at in range(count - 1, 0, -1):
            other = self.below(at + 1)
            items[at], items[other] = items[other], items[at]
        return tuple(items)

    def passage(self, game):
        return Passage(self.one_of(renamings(game)), self.order(8), self.order(len(game.cells)))


class Origin(NamedTuple):
    """A board that records are images of, and moves that win from it, if they are known."""

    game: Game
    board: Board
    solution: list


class MoveList(NamedTuple):
    sign: str  # `>`, or `>>` where several cards may go at once
    moves: list

    def line(self):
        return " ".join([self.sign, *self.moves]) + "\n"

    def carried(self, game, passage):
        return self._replace(moves=carried_moves(game, passage, self.moves))


class Record(NamedTuple):
    name: str
    origin: Origin
    board: Board
    lists: list
    winning: Optional[MoveList]  # the first of the lists that wins

    def text(self):
        lists = "".join(it.line() for it in self.lists)
        return f"@ {self.origin.game.word} {self.name}\n{board_text(self.board)}{lists}"


def put(piles, at, pile):
    return (*piles[:at], pile, *piles[at + 1:])


def came_from(game, board, card, target):
    """Each move of a card that is now nowhere, to this target, with the board before it."""
    for at, column in enumerate(board.columns):
        yield COLUMNS[at] + target, board._replace(columns=put(board.columns, at, (*column, card)))
    for at, cell in enumerate(board.cells):
        if cell is None:
            yield game.cells[at] + target, board._replace(cells=put(board.cells, at, card))


def moves_home_before(game, board):
    for suit, height in enumerate(board.heights):
        if height:
            rest = board._replace(heights=put(board.heights, suit, height - 1))
            yield from came_from(game, rest, 4 * (height - 1) + suit, "h")


def other_moves_before(game, board):
    """The moves to a column or a cell of which this may be the board after them."""
    for at, column in enumerate(board.columns):
        if column and (may_go_on(game, column[-1], column[-2]) if len(column) > 1 else may_fill(game, column[-1])):
            rest = board._replace(columns=put(board.columns, at, column[:-1]))
            yield from came_from(game, rest, column[-1], COLUMNS[at])
    for at, card in enumerate(board.cells):
        if card is not None:
            rest = board._replace(cells=put(board.cells, at, None))
            yield from came_from(game, rest, card, game.cells[at])


def late_board(draws, game):
    """A board from which few moves win, and these moves."""
    board = Board((13,) * 4, (None,) * len(game.cells), ((),) * 8)
    solution = []
    for _ in range(4 + draws.below(24)):
        ways = [] if draws.below(3) else [it for it in other_moves_before(game, board) if it[0][0] != it[0][1]]
        move, board = draws.one_of(ways or list(moves_home_before(game, board)))
        solution.insert(0, move)
    return Origin(game, board, solution)


def eight_off_board(board):
    """The last cards of the four long columns go to cells, so that each column has six."""
    return Board(board.heights, (*(column[6] for column in board.columns[:4]), *(None,) * 4),
                 tuple(column[:6] for column in board.columns))


def origins(draws, deal):
    """Boards of which no two are of one game and equivalent."""
    found = {}

    def keep(origin):
        found.setdefault((origin.game, str(least(origin.game, origin.board))), origin)

    for game in (FREECELL, BAKERS_GAME):
        for number in range(1, DEALS + 1):
            keep(Origin(game, deal(game, number), None))
    for number in range(1, EIGHT_OFF_DEALS + 1):
        keep(Origin(EIGHT_OFF, eight_off_board(deal(FREECELL, number)), None))
    for game in (FREECELL, BAKERS_GAME, EIGHT_OFF):
        most = len(found) + LATE_BOARDS
        while len(found) < most:
            keep(late_board(draws, game))
    # The late boards of FreeCell are boards of Baker's Game too.
    for origin in [it for it in found.values() if it.game is FREECELL and it.solution]:
        keep(Origin(BAKERS_GAME, origin.board, None))
    return list(found.values())


def solution_list(draws, origin):
    """The solution, with either sign; a move from column to column is of one card also after `>>`, by `v1`."""
    if draws.below(2):
        return MoveList(">", origin.solution)
    return MoveList(">>", [move + "v1" if set(move) <= set(COLUMNS) else move for move in origin.solution])


def lists_of(draws, origin, winning):
    """Lists of moves on the origin's board; none wins but the one given, if there is one."""
    others = [["11"], ["1a", "2b"], *([origin.solution[:-1]] if origin.solution else [])]
    lists = [MoveList(draws.one_of([">", ">>"]), draws.one_of(others)) for _ in range(draws.below(3))]
    if winning:
        lists.insert(draws.below(len(lists) + 1), winning)
    return lists


def collection(deal):
    """The records; `deal` gives the board of a game and a number."""
    draws = Draws()
    boards = origins(draws, deal)
    solved = [origin for origin in boards if origin.solution]
    records = []
    for place, number in enumerate(draws.order(RECORDS)):
        is_solved = place % EACH == 0
        origin = draws.one_of(solved if is_solved else boards)
        passage = draws.passage(origin.game)
        winning = solution_list(draws, origin) if is_solved else None
        lists = lists_of(draws, origin, winning)
        records.append(Record(
            f"n{number}", origin, carried(passage, origin.board),
            [it.carried(origin.game, passage) for it in lists],
            winning.carried(origin.game, passage) if winning else None,
        ))
    return records
