"""solved.py: a table of solved positions of FreeCell, in SQLite. A solution is found from every
board that is equivalent to the one that was solved.

    (fcanon deal 1; echo '> 3a ..') | python3 solved.py my.db    # adds a board and a list that wins
    python3 solved.py my.db < other.board    # prints a list that wins, if one is known
"""

import sqlite3
import sys

from fcanon import Board


def add(table, board, moves):
    end = board
    for move in moves:
        end = end.play(move)
    if not end.is_won:
        raise ValueError("the list does not win")
    canonical, passage = board.canonicalize()
    images = " ".join(passage.carry(move) for move in moves)
    table.execute("insert or replace into solved values (?, ?)", (bytes(canonical), images))


def found(table, board):
    canonical, passage = board.canonicalize()
    back = passage.inverse()
    for (images,) in table.execute("select moves from solved where board = ?", (bytes(canonical),)):
        return [back.carry(move) for move in images.split()]


text, _, moves = sys.stdin.read().partition(">")
with sqlite3.connect(sys.argv[1]) as table:
    table.execute("create table if not exists solved (board blob primary key, moves text)")
    if moves:
        add(table, Board(text), moves.split())
    else:
        print(*[">", *(found(table, Board(text)) or ["unknown"])])
