"""What must be so of any input, whole and in pieces, by runs of the program (runs.py)."""

import json
import re

from lib.commands import COMMANDS


def records_in(text):
    """How many records a collection has: each header begins one, and what holds something before the first is one."""
    lines = text.split(b"\n")
    first = next((place for place, line in enumerate(lines) if line.startswith(b"@")), len(lines))
    held = (line[:-1] if line.endswith(b"\r") else line for line in lines[:first])
    before = any(line.strip(b" \t") and not line.lstrip(b" \t").startswith(b"#") for line in held)
    return before + sum(line.startswith(b"@") for line in lines)


def lines_with(text, mark):
    return [line for line in text.split(b"\n") if line.startswith(mark)]


def without_refusals(text):
    return b"".join(line for line in text.splitlines(keepends=True) if not line.startswith(b"# refused "))


def without_comments(text):
    return b"".join(line for line in text.splitlines(keepends=True) if not line.startswith(b"# "))


def verdicts(checked):
    """What check says here of each list: `wins`, `legal`, or where and why it is illegal."""
    lines = [line for line in checked.splitlines() if not line.startswith(b"# refused ")]
    said = [line.split(b" ", 2)[2] for line in lines if not line.endswith(b" no list")]
    return [verdict if verdict.startswith(b"illegal ") else verdict.split()[0] for verdict in said]


def is_expanded(checked, expanded, checked_again):
    """Whether each list that expand printed does what check says of the one that it was given, and expand says of each
    other one why it is not printed. The last text is what check says of what expand printed.
    """
    wanted, again = verdicts(checked), verdicts(checked_again)
    left = iter(again)
    found = [line.split(b" ", 3)[3] if line.startswith(b"#") else next(left, None)
             for line in expanded.splitlines() if line.startswith((b">", b"# list "))]
    is_legal = all(verdict in (b"legal", b"wins") for verdict in again)
    return is_legal and len(found) == len(wanted) and next(left, None) is None and all(
        now == before or now == b"too long" and before in (b"legal", b"wins") for now, before in zip(found, wanted))


def is_part(lines, others):
    """Whether these lines are among the others in their order."""
    left = iter(others)
    return all(line in left for line in lines)


def first_wins(checked, counts):
    """The number of the first list that wins of each record, or `-`, by what check says of records with so many lists."""
    lines = iter(line for line in checked.splitlines() if not line.startswith(b"# refused "))
    for count in counts:
        said = [next(lines) for _ in range(max(count, 1))]
        yield next((str(number).encode() for number, line in enumerate(said, 1) if b" wins " in line), b"-")


def table_faults(table, checked, canonical, groups):
    """What is not as it must be of a table without refusals, by what check and canon say of its records, and by the
    number of groups.
    """
    rows = [line.split(b"\t") for line in table.splitlines()]
    if any(len(row) != 8 for row in rows):
        yield "table has other columns than eight"
        return
    if len({(row[1], row[2]) for row in rows}) != groups:
        yield "table has other boards than group"
    if [row[7] for row in rows] != list(first_wins(checked, [int(row[6]) for row in rows])):
        yield "table has other wins than check"
    passages = [b"# renaming %s columns %s cells %s" % tuple(row[3:6]) for row in rows]
    boards = [row[2].replace(b"  ", b"\n") for row in rows]
    text = b"\n".join(line for line in canonical.splitlines() if not line.startswith((b"@", b">")))
    if b"\n".join(part for pair in zip(boards, passages) for part in pair) != text:
        yield "table has other boards or passages than canon"


def unique_faults(unique, shown, grouped, grouped_again):
    """What is not as it must be of what unique prints, without refusals."""
    if not is_part(unique.splitlines(), shown.splitlines()):
        yield "unique prints what show does not print"
    if any(not line.startswith(b"# members 1:") for line in lines_with(grouped_again, b"# members ")):
        yield "unique prints two records of one group"
    if without_comments(grouped_again) != without_comments(grouped):
        yield "what unique prints has other groups, or other first records"


def boards_of(shown):
    """The boards that show prints here, in their order."""
    lines = shown.decode().splitlines()
    return [lines[at:at + 10] for at, line in enumerate(lines) if line.startswith("Foundations:")]


def carried(board, renaming, columns, cells):
    """The lines of the printed board that a passage leads to from this one."""
    suits = dict(zip("CDHS", renaming))
    heights, held, *piles = (line.split() for line in board)
    height_of = {suits[word[0]]: word[1:] for word in heights[1:]}
    renamed = [[word[:-1] + suits.get(word[-1], word[-1]) for word in pile[1:]] for pile in piles]
    held = [word[:-1] + suits.get(word[-1], word[-1]) for word in held[1:]]
    return [" ".join([heights[0], *(suit + height_of[suit] for suit in "HCDS")]),
            " ".join(["Freecells:", *(held["abcdefgk".index(cell)] for cell in cells)]),
            *(" ".join([":", *renamed[int(column) - 1]]) for column in columns)]


# The lines of what closed finds, with the members of its object but the first.
FINDINGS = [r"closed (?P<records>\d+) records (?P<classes>\d+) classes", r"won (?P<name>\S+)",
            r"open (?P<name>\S+) (?P<move>\S+)", r"refused (?P<records>\d+) records"]


def object_of(line, header):
    """The members of the object that JSON has in place of this line of a table, of figures or of what closed finds."""
    refused = re.fullmatch(r"# refused (\S+) at (\d+): (.*)", line)
    if refused:
        return [("refused", refused[1]), ("place", int(refused[2])), ("reason", refused[3])]
    finding = next(filter(None, (re.fullmatch(form, line) for form in FINDINGS)), None)
    if finding:
        texts = {"finding": line.split(" ")[0], **finding.groupdict()}
        return [(name, int(text) if name in ("records", "classes") else text) for name, text in texts.items()]
    if "\t" not in line:
        words = line.split(" ")
        return list(zip(words[::2], map(int, words[1::2])))
    *fields, lists, win = line.split("\t")
    return list(zip(header.split("\t"), [*fields, int(lists), None if win == "-" else int(win)]))


def objects_in(text):
    """The members of the object in each line of a text, or the line where it has none."""
    for line in text.splitlines():
        try:
            yield json.loads(line, object_pairs_hook=list)
        except ValueError:
            yield line


def format_faults(printed, table, count, closed):
    """What is not as it must be of a table with a header, and of what these commands print in JSON, by what they print without.

    `printed` is what a command and its options print of the same input.
    """
    header, _, headed = printed("table", "--header").partition(b"\n")
    if headed != table:
        yield "table has other lines under a header"
    for command, lines in [("table", table), ("count", count), ("closed", closed)]:
        wanted = [object_of(line, header.decode("ascii")) for line in lines.decode("ascii").splitlines()]
        if repr(wanted) != repr([*objects_in(printed(command, "--json"))]):
            yield f"{command} has other members in JSON"


def same_faults(same, shown, table):
    """What is not as it must be of what same prints, without refusals, by the boards that show prints and by their
    games and canonical boards in the table.
    """
    lines, boards = same.decode().splitlines(), boards_of(shown)
    groups = [line.split(b"\t")[1:3] for line in table.splitlines()]
    if len(lines) != max(len(boards) - 1, 0):
        yield "same does not speak of every record but the first"
    for line, board, group in zip(lines, boards[1:], groups[1:]):
        name, *passage = line.split()
        if (passage == ["apart"]) == (group == groups[0]):
            yield "same puts other boards apart than group"
        if passage != ["apart"] and carried(boards[0], *passage[1::2]) != board:
            yield "same prints a passage that leads to another board"


def symmetries_faults(symmetries, shown):
    """What is not as it must be of what symmetries prints, without refusals, by the boards that show prints: each begins
    with the renaming that changes nothing, and leaves the cards in cells and columns as they are but for their order.
    """
    boards, found = iter(boards_of(shown)), []
    for line in symmetries.decode().splitlines():
        name, _, renaming = line.split()
        if renaming == "CDHS":
            board = next(boards, None)
            found = []
        elif not found or renaming <= found[-1]:
            yield "symmetries come in another order"
        found.append(renaming)
        if board is None or piles(carried(board, renaming, "12345678", "abcdefgk"[:len(board[1].split()) - 1])) != piles(board):
            yield "symmetries prints a renaming that leads to another board"
    if next(boards, None):
        yield "symmetries does not speak of every board"


def piles(board):
    """The foundations, and the cells and columns in order, of a printed board."""
    return board[0], sorted(board[1].split()), sorted(board[2:])


def count_faults(count, checked, table):
    """What is not as it must be of what count prints, by what check says of the same records and by their table."""
    rows = [line.split(b"\t") for line in without_refusals(table).splitlines()]
    refused, groups = len(lines_with(checked, b"# refused ")), {(row[1], row[2]) for row in rows}
    lists, wins = sum(int(row[6]) for row in rows), sum(verdict == b"wins" for verdict in verdicts(checked))
    solved = {(row[1], row[2]) for row in rows if row[7] != b"-"}
    figures = len(rows) + refused, refused, len(groups), len(rows) - len(groups), lists, wins, len(solved)
    if count != b"records %d refused %d groups %d doubles %d lists %d wins %d solved %d\n" % figures:
        yield f"count prints other figures than {figures}"


def closed_faults(closed, counted, shown):
    """What is not as it must be of what closed prints, without refusals, by the figures of count: it names a record that is
    accepted, or has the counts."""
    figures = [int(word) for word in counted.split()[1::2]]
    records, refused, groups = figures[:3]
    finding = closed.split()
    found = {line.split()[2] for line in shown.splitlines() if line.startswith(b"@")}
    if finding[:1] in ([b"open"], [b"won"]):
        is_well = finding[1] in found or finding[1].isdigit()
    elif refused:
        is_well = closed == b"refused %d records\n" % refused
    else:
        is_well = closed == b"closed %d records %d classes\n" % (records, groups)
    if not is_well:
        yield f"closed prints {closed!r}"


def import_faults(runs, text, pieces, words):
    """What is not as it must be of what import makes of an input."""
    ended = runs.run_whole(["import", *words], text)
    if ended != runs.run(["import", *words], pieces):
        yield "import does otherwise in pieces"
    if ended[0] not in (0, 1) or runs.run_whole(["show", *words], ended[1]) != (0, ended[1], b""):
        yield f"import ends with {ended[0]}, or prints what is not shown as it is"


def faults(runs, text, pieces, words=()):
    """What is not as it must be of an input within the limits, which comes whole and in these pieces.

    - each command does alike on both, and ends with status 0 or 1;
    - canon says of each record, by one line, where its passage leads or why it is refused;
    - show prints its own output again, and so it does of what expand, share and unique print;
    - check says the same of what canon prints as of what canon was given, and of each list that expand prints;
    - group and share have the accepted records, each once, and every list that share prints wins;
    - unique prints records of show, one of each group; table says of each what canon, check and group say;
    - each line that table, count and closed print in JSON is an object with the members of the line without;
    - each passage that same prints leads from the first board to the record's own; symmetries lead to the board itself;
    - count has the figures of check and table, and closed those of count, or it names a record;
    - import does alike on both, and show prints its output again.
    """
    out = {}
    for command in COMMANDS:
        ended = runs.run_whole([command, *words], text)
        out[command] = ended[1]
        if ended != runs.run([command, *words], pieces):
            yield f"{command} does otherwise in pieces"
        if ended[0] not in (0, 1) or ended[2]:
            yield f"{command} ends with {ended[0]}: {ended[2]!r}"
    refused, accepted = lines_with(out["canon"], b"# refused "), len(lines_with(out["canon"], b"# renaming "))
    if accepted + len(refused) != records_in(text):
        yield "canon does not speak of every record"
    if any(lines_with(out[command], b"# refused ") != refused for command in COMMANDS):
        yield "the commands refuse differently"
    shown, expanded, shared, unique = (without_refusals(out[command]) for command in ["show", "expand", "share", "unique"])
    for name, printed in [("show", shown), ("expand", without_comments(expanded)), ("share", shared), ("unique", unique)]:
        if runs.run_whole(["show", *words], printed) != (0, printed, b""):
            yield f"what {name} prints is not shown as it is"
    if not is_expanded(out["check"], expanded, runs.run_whole(["check", *words], expanded)[1]):
        yield "lists that are expanded are checked otherwise"
    if runs.run_whole(["check", *words], out["canon"]) != (0, without_refusals(out["check"]), b""):
        yield "what canon prints is checked otherwise"
    members = [int(line.split(b" ")[2].rstrip(b":")) for line in lines_with(out["group"], b"# members ")]
    if sum(members) != accepted or len(lines_with(shared, b"@")) != accepted:
        yield "group or share does not have the accepted records"
    yield from unique_faults(unique, shown, out["group"], runs.run_whole(["group", *words], unique)[1])
    yield from table_faults(without_refusals(out["table"]), out["check"], without_refusals(out["canon"]), len(members))
    yield from format_faults(lambda *it: runs.run([*it, *words], pieces).printed, out["table"], out["count"], out["closed"])
    yield from same_faults(without_refusals(out["same"]), shown, without_refusals(out["table"]))
    yield from symmetries_faults(without_refusals(out["symmetries"]), shown)
    yield from count_faults(without_refusals(out["count"]), out["check"], out["table"])
    yield from closed_faults(without_refusals(out["closed"]), without_refusals(out["count"]), shown)
    yield from import_faults(runs, text, pieces, words)
    verdicts = runs.run_whole(["check", *words], shared)[1].splitlines()
    if any(b" wins " not in line and not line.endswith(b" no list") for line in verdicts):
        yield "a list that share prints does not win"
