"""What each command prints of a collection, read again: by the program, and by the reader of printed boards here.

Boards are known by lib.boards, where equivalent ones have one least form, and groups by these: nothing of that is the program's.
"""

from typing import NamedTuple, Optional

from lib.any_input import is_expanded, verdicts, without_refusals
from lib.boards import BAKERS_GAME, EIGHT_OFF, FREECELL, Board, Game, least, printed_board

GAMES = {game.word: game for game in (FREECELL, BAKERS_GAME, EIGHT_OFF)}


class Record(NamedTuple):
    game: Game
    name: Optional[str]  # where it has a header
    board: Board
    lists: tuple

    def form(self):
        """What equivalent boards of a game have alone."""
        if self not in FORMS:
            FORMS[self] = self.game, least(self.game, self.board)
        return FORMS[self]


FORMS = {}  # of each record


def records_in(printed, game):
    """The records that are printed here; the first may have no header, and is of this game then."""
    found, head = [], (GAMES[game], None)
    for line in printed.decode("ascii").splitlines():
        mark, *words = line.split(" ")
        if mark == "@":
            head = GAMES[words[0]], words[1]
        elif mark == "Foundations:":
            found.append((*head, [line], []))
        elif line[:1] == ">":
            found[-1][3].append(line)
        elif mark != "#":
            found[-1][2].append(line)
    return [Record(game, name, printed_board("\n".join(lines)), tuple(lists)) for game, name, lines, lists in found]


def groups_of(records):
    """The groups of records, each with the places of its members, in the order of the first of them."""
    groups = {}
    for place, record in enumerate(records):
        groups.setdefault(repr(record.form()), []).append(place)
    return list(groups.values())


def groups_in(table):
    """The groups of the records of a table, by their games and canonical boards."""
    groups = {}
    for place, line in enumerate(without_refusals(table).splitlines()):
        groups.setdefault(tuple(line.split(b"\t")[1:3]), []).append(place)
    return list(groups.values())


def verdicts_of(checked, records):
    """What check says of the lists of each record."""
    left = iter(verdicts(checked))
    return [[next(left) for _ in record.lists] for record in records]


def winning(said):
    return [verdict for verdict in said if verdict == b"wins"]


def is_kept(before, after):
    """Whether it is the same record: its game, its board, and its name where it had a header."""
    return before[::2] == after[::2] and before.name in (None, after.name)


def is_equivalent(before, after):
    return before.form() == after.form() and before.name in (None, after.name)


def lines_of_table(table):
    """The records of a table: the canonical board is in one column, with two blanks for the end of each line but the last."""
    for line in without_refusals(table).decode("ascii").splitlines():
        name, game, board, *_ = line.split("\t")
        yield Record(GAMES[game], name, printed_board(board.replace("  ", "\n")), ())


class Printed:
    """What the program prints of a collection with these words, which name this game, and of what it printed."""

    def __init__(self, run, game):
        self.run, self.game = run, game

    def of(self, command, text):
        return self.run([command, "--variant", self.game], text)

    def read(self, text):
        """The records that are printed here, and what check says of each."""
        records = records_in(text, self.game)
        return records, verdicts_of(self.of("check", text), records)

    def faults(self, command, text, wanted, groups, keeps=is_kept):
        """What is not as it must be where these records, in these groups, are what a command printed."""
        records, said = self.read(text)
        if len(records) != len(wanted) or not all(map(keeps, [it for it, _ in wanted], records)):
            yield f"{command} prints other boards"
        if said != [verdicts for _, verdicts in wanted]:
            yield f"check says of what {command} prints {said}, and must say {[verdicts for _, verdicts in wanted]}"
        if [groups_of(records), groups_in(self.of("table", text))] != [groups, groups]:
            yield f"what {command} prints has other groups"
        plain = b"".join(line for line in text.splitlines(keepends=True) if not line.startswith(b"# "))
        if self.of("show", text) != plain:
            yield f"show does not print what {command} printed"


def again_faults(run, text, game="freecell"):
    """What is not as it must be where what commands print of a collection is read again.

    `run` gives what the program prints, by its words and a text. What refused records get is left out.
    """
    by = Printed(run, game)
    out = {command: without_refusals(by.of(command, text)) for command in
           ("show", "canon", "expand", "group", "share", "unique", "table", "check")}
    records = records_in(out["show"], game)
    said, groups = verdicts_of(out["check"], records), groups_of(records)
    whole = list(zip(records, said))
    alone = [[place] for place in range(len(groups))]
    yield from by.faults("show", out["show"], whole, groups)
    yield from by.faults("canon", out["canon"], whole, groups, is_equivalent)
    yield from by.faults("group", out["group"], [(records[group[0]], []) for group in groups], alone, is_equivalent)
    yield from by.faults("unique", out["unique"], [whole[group[0]] for group in groups], alone)
    shared, places = [], iter(range(len(records)))
    for group in groups:
        wins = any(winning(said[place]) for place in group)
        shared += [(records[place], [b"wins"] if wins else []) for place in group]
    yield from by.faults("share", out["share"], shared, [[next(places) for _ in group] for group in groups])
    expanded = verdicts_of(by.of("check", out["expand"]), records_in(out["expand"], game))
    yield from by.faults("expand", out["expand"], list(zip(records, expanded)), groups)
    if not is_expanded(out["check"], out["expand"], by.of("check", out["expand"])):
        yield "lists that are expanded are checked otherwise"
    table = list(lines_of_table(out["table"]))
    if len(table) != len(records) or not all(map(is_equivalent, records, table)) or groups_of(table) != groups:
        yield "table has other boards or groups"
