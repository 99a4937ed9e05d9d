"""search.py: solves a board by a search that takes up one board of each class, breadth first, and
prints the list of moves on the board that it was given.

    python3 search.py < late.board
    python3 search.py eight_off < late.board
"""

import sys
from collections import deque

from fcanon import Board


def steps_to_a_win(start):
    """Canonical boards, each with the move to the next, from this one to a won one; or None."""
    came = {start: None}
    waiting = deque([start])
    while waiting:
        board = waiting.popleft()
        if board.is_won:
            return steps_to(board, came)
        for move, child in board.children():
            if child not in came:
                came[child] = (board, move)
                waiting.append(child)
    return None


def steps_to(board, came):
    steps = []
    while came[board]:
        steps.append(came[board])
        board = came[board][0]
    return reversed(steps)


def told(steps, way):
    """The moves of these steps on a board to which this way leads from the first of them. After a
    move the same way leads to the board after it, so that the next step needs one passage more:
    from its canonical board to the one that this was made of."""
    for board, move in steps:
        yield way.carry(move)
        way = board.child(move)[1].inverse().then(way)


given = Board(sys.stdin.read(), *sys.argv[1:])
canonical, passage = given.canonicalize()
steps = steps_to_a_win(canonical)
print("no solution" if steps is None else " ".join([">", *told(steps, passage.inverse())]))
