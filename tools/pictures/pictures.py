"""The pictures of the documents, the book and the paper, each drawn from what the repository has."""

import re
import sys
from collections import deque
from pathlib import Path

sys.path.append(str(Path(__file__).resolve().parent.parent.parent / "tests"))
from drawing import BLUE, BOX, GREEN, LINE, ORANGE, PALE, RED, Picture  # noqa: E402
from lib.paths import EXAMPLES, ROOT  # noqa: E402

DOCS = ROOT / "docs"
SUITS = {"C": "♣", "D": "♦", "H": "♥", "S": "♠"}
# One for each column of the canonical board, as on the page.
COLUMNS = ("#b3262e", "#b35c14", "#8a7a10", "#3f7a2a", "#1f7a6e", "#25609a", "#5a4aa8", "#9a3a86")
WIDE, HIGH = 29, 14  # of a card


def table_below(document, heading, first):
    """The cells of the table below a heading whose first title this is, by rows, the titles first."""
    text = (DOCS / document).read_text().partition(f"\n## {heading}\n")[2].partition("\n## ")[0]
    table = f"| {first} |" + text.partition(f"\n| {first} |")[2].partition("\n\n")[0]
    rows = [[cell.strip().replace("`", "") for cell in line.strip().strip("|").split("|")] for line in table.splitlines()]
    return [rows[0], *rows[2:]]


def numbers_in(cell):
    return [float(number.replace(",", "")) for number in re.findall(r"\d[\d,.]*", cell)]


# ---- two boards, and the one that both become


def record(file, name):
    """The columns of a record's board, and the renaming and the order that are printed with it."""
    text = (EXAMPLES / file).read_text().partition(f"@ freecell {name}\n")[2].partition("\n@ ")[0]
    cards = r"(?:10|[2-9TJQKA])[CDHS]"
    columns = re.findall(rf"^:? ?({cards}(?: {cards})*)$", text.upper(), re.M)
    said = re.search(r"^# renaming (\w+) columns (\d+)", text, re.M)
    return [column.replace("10", "T").split() for column in columns], said and said.groups()


def draw_column(picture, x, y, cards, colour):
    picture.box(x, y, WIDE - 3, 4, colour)
    picture.box(x, y + 5, WIDE - 3, HIGH * len(cards) + 4)
    for row, card in enumerate(cards):
        shown = card[0].replace("T", "10") + SUITS[card[1]]
        picture.words(x + 2, y + 16 + row * HIGH, shown, 11, RED if card[1] in "DH" else "#15211d")


def draw_board(picture, x, y, title, columns, order):
    """A board whose columns have the colours of their places on the canonical one."""
    picture.words(x, y - 6, title, 13)
    for at, cards in enumerate(columns):
        draw_column(picture, x + at * WIDE, y, cards, COLUMNS[order.index(str(at + 1))])


def draw_passage(picture, x, order, to_x):
    for place, old in enumerate(order):
        picture.curve(x + (int(old) - 1) * WIDE + WIDE / 2, 144, to_x + place * WIDE + WIDE / 2, 206, COLUMNS[place], 1.5)


def boards():
    picture = Picture("Microsoft's deal 1 and a board that looks new have one canonical board")
    first, second, middle = 14, 480, 247
    for x, name, title, words_x in ((first, "deal-1", "Microsoft's deal 1", first), (second, "looks-new", "a board found somewhere", 530)):
        columns, _ = record("positions.collection", name)
        canonical, (suits, order) = record("positions.canonical", name)
        draw_board(picture, x, 28, title, columns, order)
        draw_passage(picture, x, order, middle)
        picture.words(words_x, 250, "suits " + " ".join(f"{a}→{SUITS[b]}" for a, b in zip(SUITS.values(), suits)), 12)
        picture.words(words_x, 268, f"columns {order}", 12)
    draw_board(picture, middle, 208, "", canonical, "12345678")
    picture.words(middle, 340, "the canonical board of both", 13)
    picture.grow(second + 8 * WIDE, 340)
    return picture


# ---- the crates in layers


def below(crate, uses):
    return {it for other in uses[crate] for it in {other} | below(other, uses)}


def crates():
    """Each crate with those that it stands on."""
    lines = re.findall(r"^(\w+)[^:#\n]*:(.*)$", (ROOT / "crates.txt").read_text(), re.M)
    names = [name for name, _ in lines]
    return {name: [other for other in rest.split() if other in names] for name, rest in lines}


def places(uses):
    """Where the box of each crate is: a row for each layer, the lowest below."""
    layers = {}
    for crate in uses:
        layers[crate] = 1 + max((layers[other] for other in uses[crate]), default=-1)
    rows = [[crate for crate in uses if layers[crate] == layer] for layer in range(max(layers.values()) + 1)]
    widest = max(map(len, rows))
    return {crate: (14 + (widest - len(row)) * 97 + at * 194, 14 + (len(rows) - 1 - layer) * 66)
            for layer, row in enumerate(rows) for at, crate in enumerate(row)}


def wrapped(text, most=31):
    """The first two lines of a text."""
    lines = [""]
    for word in text.split():
        if len(f"{lines[-1]} {word}") > most:
            lines.append("")
        lines[-1] = f"{lines[-1]} {word}".strip()
    return lines[:2]


def draw_crate(picture, x, y, crate, words):
    picture.box(x, y, 180, 46, "#e3f1e8" if crate.startswith("fcanon") else "#e4ecf7" if crate == "fc_laws" else BOX)
    picture.words(x + 6, y + 15, crate, 12)
    for line, text in enumerate(wrapped(words)):
        picture.words(x + 6, y + 28 + line * 12, text, 10, PALE)


def layers():
    picture, uses = Picture("The crates in layers, each above those that it stands on"), crates()
    at, words = places(uses), {row[0]: row[1] for row in table_below("ARCHITECTURE.md", "Layers", "Crate")}
    edges = [(crate, other) for crate in uses for other in uses[crate]
             if not any(other in below(between, uses) for between in uses[crate])]
    for crate, other in edges:
        picture.curve(at[crate][0] + 90, at[crate][1] + 46, at[other][0] + 90, at[other][1])
    for crate, place in at.items():
        draw_crate(picture, *place, crate, re.sub(r"\[(\w+)\]\([^)]*\)", r"\1", re.split("[:;]", words[crate])[0]))
    return picture


# ---- the way of a record


def clause(text, most=70):
    """The first sentence of a text, or the first clause of one that is long."""
    sentence = re.split("[.;] ", text)[0]
    return sentence if len(sentence) <= most else sentence.partition(", ")[0]


def way():
    """The steps of docs/ARCHITECTURE.md, each with its crate and what comes out."""
    picture, crate, y = Picture("The way of a record, from bytes that are read to bytes that are written"), "", 14
    for step, where, goes_in, comes_out in table_below("ARCHITECTURE.md", "The way of a record", "Step")[1:]:
        crate = next(iter(re.findall(r"\bf(?:c_|canon)\w*", where)), crate)
        inner = 30 if step[-1].isalpha() else 0
        picture.box(14 + inner, y, 126 - inner, 24, BOX if inner else "#e3f1e8")
        picture.words(20 + inner, y + 16, f"{step} {crate}", 12)
        picture.words(152, y + 16, f"{goes_in} → {clause(comes_out)}", 11)
        y += 32
        picture.grow(640, y)
    return picture


# ---- pebbles on a line


def play(reach, most, far):
    """The shortest play that brings one of so many pebbles so far; each is put down or taken up in reach of a lower one, or of the floor at 0."""
    before, left = {frozenset(): None}, deque([frozenset()])
    while far not in left[0]:
        now = left.popleft()
        for place in range(1, far + 1):
            then = now ^ {place}
            if len(then) <= most and then not in before and any(low in now | {0} for low in range(place - reach, place)):
                before[then] = now
                left.append(then)
    now, shown = left[0], []
    while now is not None:
        shown.insert(0, now)
        now = before[now]
    return shown


def draw_side(picture, x, y, title, places, high, colour):
    picture.words(x, y, title, 12)
    for at, place in enumerate(places):
        picture.box(x + at * 36, y + 6, 34, high, colour)
        picture.words(x + at * 36 + 17, y + 20, str(place), 11, PALE, "middle")


def pebbles():
    """The play that comes farthest with one pebble to a place and three of them; the edge is that of the proof in docs/TWO_PROOFS.md."""
    reach, most = 1, 3
    far, edge = reach * (2 ** most - 1), reach * 2 ** (most - 1)
    shown = play(reach, most, far)
    picture, high = Picture("Pebbles that come as far as three can, move by move, below an edge and above it"), 26 + 14 * len(shown)
    x = {place: 20 + (place - 1) * 36 + (34 if place > edge else 0) for place in range(1, far + 1)}
    draw_side(picture, x[1], 20, f"up to the edge: h + r = {edge}", range(1, edge + 1), high, "#e4ecf7")
    draw_side(picture, x[edge + 1], 20, f"above it: h = {edge - reach}", range(edge + 1, far + 1), high, "#e3f1e8")
    for row, now in enumerate(shown):
        for place in sorted(now):
            picture.box(x[place] + 11, 46 + row * 14, 12, 12, BLUE if place <= edge else GREEN)
    return picture


# ---- bars


def legend(picture, series, x):
    for (name, colour), at in zip(series, range(len(series))):
        picture.box(x + at * 110, 8, 10, 10, colour)
        picture.words(x + 14 + at * 110, 17, name)


def bars(title, series, groups, unit):
    """Groups of bars, one below the other, each bar with its number."""
    picture, longest, high = Picture(title), max(value for _, values in groups for value in values), 22 + 13 * len(series)
    legend(picture, series, 14)
    for at, (name, values) in enumerate(groups):
        picture.words(14, 36 + at * high, name)
        draw_bars(picture, 36 + at * high, [(colour, value / longest * 330, f"{value:,g}{unit}") for (_, colour), value in zip(series, values)])
    picture.grow(400, 22 + len(groups) * high)
    return picture


def draw_bars(picture, y, found):
    for at, (colour, long, says) in enumerate(found):
        picture.box(14, y + 5 + at * 13, max(1, long), 11, colour)
        picture.words(19 + long, y + 14 + at * 13, says, 10, PALE)


def merging():
    head, *rows = table_below("LIBRARY.md", "A search on canonical boards", "Cards home")
    series = list(zip(head[1:], (GREEN, BLUE, ORANGE)))
    return bars("States that renaming of suits merges, by cards home", series,
                [(f"{row[0]} cards home", [numbers_in(cell)[0] for cell in row[1:]]) for row in rows], " %")


def speed():
    head, *rows = table_below("SPEED.md", "Beside programs that prove nothing", "Records")
    series = (("fcanon", GREEN), ("baseline", BLUE), ("limit", ORANGE))
    groups = [(f"{command}: {row[0]}", numbers_in(cell)) for row in rows for command, cell in zip(head[1:], row[1:])]
    return bars("Instructions a record, of fcanon, a baseline and a limit", series, groups, "")


PICTURES = {"boards": boards, "layers": layers, "way": way, "pebbles": pebbles, "merging": merging, "speed": speed}
