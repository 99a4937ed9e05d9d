"""What library/fcanon.h and library/fcanon_runs.h name: games, answers, tasks, formats, and how much there can be.

A game, a reason, a fault, a task and a format have the words of their names. tools/tables writes them for other languages.
"""

import re
from typing import NamedTuple

from lib.paths import ROOT

HEADER, RUNS_HEADER = ((ROOT / "library" / name).read_text() for name in ("fcanon.h", "fcanon_runs.h"))
REASON, FAULT = 32, 64  # the first numbers of reasons against a move, and of faults of a text


class Game(NamedTuple):
    word: str  # the program's
    title: str
    cells: int
    rules: str
    by_suit: bool


def members(enum):
    """The names of an enum of fcanon.h, each with its number and its comment."""
    body = re.search(rf"^enum {enum} \{{\n(.*?)^\}};", HEADER, re.M | re.S)[1]
    found, number = {}, 0
    for name, value, comment in re.findall(r"^    FCANON_(\w+)(?: = (\d+))?,?(?: +/\* (.*) \*/)?$", body, re.M):
        number = int(value or number)
        found[name] = number, comment
        number += 1
    return found


def game(name, comment):
    title, cells, rules = re.fullmatch(r"(.*): (\d+) cells; (.*)", comment).groups()
    return Game(name.lower(), title, int(cells), rules, rules.endswith("in suit"))


def words(names):
    return [name.replace("_", " ").lower() for name in names]


def numbered(kind):
    """What fcanon_runs.h numbers from 0 on, as the tasks."""
    found = {int(number): name.lower() for name, number in re.findall(rf"^#define FCANON_{kind}_(\w+) (\d+)$", RUNS_HEADER, re.M)}
    return [found[number] for number in range(len(found))]


def defined(header):
    """The numbers that a header defines, each with its comment."""
    found = re.findall(r"^#define FCANON_(\w+) (\d+)(?: /\* (.*) \*/)?$", header, re.M)
    return {name: (int(number), comment) for name, number, comment in found}


RULES = [game(name, comment) for name, (_, comment) in members("fcanon_game").items()]
GAMES = [it.word for it in RULES]
ANSWERS = {name: number for name, (number, _) in members("fcanon_answer").items()}
MISSING = ANSWERS["FIRST_MISSING_CARD"], ANSWERS["LAST_MISSING_CARD"]
REASONS = words(name for name, number in ANSWERS.items() if REASON <= number < FAULT)
FAULTS = words(name for name, number in ANSWERS.items() if FAULT <= number < MISSING[0])
MOST = {name: it for name, it in defined(HEADER).items() if name.startswith("MOST_")}
VERSION = defined(HEADER)["VERSION"][0]
TASKS, FORMATS, LINES = map(numbered, ("TASK", "FORMAT", "LINES"))
# What the answers of fcanon_runs.h mean, by number.
MEANINGS = {int(number): meaning for number, meaning in re.findall(r"^ \* +(\d+)   (.*)$", RUNS_HEADER, re.M)}
