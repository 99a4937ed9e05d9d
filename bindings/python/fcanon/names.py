"""What fcanon.h and fcanon_runs.h name: games, answers, commands, and how these print and read."""

from enum import IntEnum
from typing import Literal, Tuple

# tools/tables wrote this from fcanon.h and fcanon_runs.h, to the next empty line.
Game = Literal["freecell", "bakers_game", "eight_off"]
GAMES: Tuple[Game, ...] = ("freecell", "bakers_game", "eight_off")
Command = Literal["show", "canon", "check", "group", "share", "expand", "unique", "table", "same",
    "symmetries", "count", "closed"]
COMMANDS: Tuple[Command, ...] = ("show", "canon", "check", "group", "share", "expand", "unique",
    "table", "same", "symmetries", "count", "closed")
Format = Literal["lines", "header", "json"]
FORMATS: Tuple[Format, ...] = ("lines", "header", "json")
Lines = Literal["unsaid", "columns", "rows"]
LINES: Tuple[Lines, ...] = ("unsaid", "columns", "rows")
RUN_FAULTS = {
    10: "no such task",
    11: "no such format",
    12: "out of memory",
    13: "input too large",
    14: "input not read to its end",
}
class Answer(IntEnum):
    """What a call answers; fcanon.h and fcanon_runs.h say it of each."""
    DONE = 0
    NO_GAME = 1
    NO_PASSAGE = 2
    NO_MOVE = 3
    NO_BOARD = 4
    NO_OTHER = 5
    APART = 6
    NO_DEAL = 7
    NO_COLUMN = 8
    NO_ROOM = 9
    NO_TASK = 10
    NO_FORMAT = 11
    OUT_OF_MEMORY = 12
    INPUT_TOO_LARGE = 13
    INPUT_NOT_READ_TO_ITS_END = 14
    NOT_CANONICAL = 16
    NOT_ASCENDING = 17
    WON = 18
    OPEN = 19
    NOT_CLOSED = 20
    NOT_AMONG = 21
    SAME_PILE = 32
    EMPTY_SOURCE = 33
    TARGET_TAKEN = 34
    KINGS_ONLY = 35
    NOT_BUILDING = 36
    NOT_NEXT = 37
    NO_RUN = 38
    OVER_CAPACITY = 39
    WRONG_COUNT = 40
    REPEATED_LINE = 64
    TOO_MANY_COLUMNS = 65
    TOO_MANY_CELLS = 66
    BAD_CARD = 67
    BAD_FOUNDATION = 68
    REPEATED_CARD = 69
    FIRST_MISSING_CARD = 128
    LAST_MISSING_CARD = 179

