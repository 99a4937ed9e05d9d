"""The map of the book in docs/TRUST.md, and what documents are compared with."""

import re
from functools import cache
from typing import NamedTuple

from lib.paths import CRATES, ROOT

TRUST = ROOT / "docs" / "TRUST.md"


class Chapter(NamedTuple):
    """A row of the map: the subject of the chapter, its crates, its modules of `fc_laws`, and its laws that are promises."""

    title: str
    crates: list
    modules: list
    promised: list


def names_in(cell):
    """The names between backticks in a cell: of `a::{b, c}` b and c, of `a::b` b."""
    for text in re.findall(r"`([^`]+)`", cell):
        front, brace, inner = text.partition("{")
        for part in (inner.rstrip("}").split(",") if brace else [text]):
            yield part.strip().split("::")[-1]


@cache
def chapters():
    """The chapters of the book, as docs/TRUST.md has them."""
    table = TRUST.read_text().partition("\n| Chapter | ")[2].partition("\n\n")[0]
    rows = [[cell.strip() for cell in line.strip("|").split("|")] for line in table.splitlines()[2:]]
    return [Chapter(title, *(list(names_in(cell)) for cell in cells)) for title, *cells in rows]


def headline():
    """The headline in one line."""
    return words_of(re.search(r"^## The headline\n\n((?:> .*\n)+)", TRUST.read_text(), re.M)[1])


def code_of(crate):
    return "\n".join(path.read_text() for path in sorted((crate / "src").rglob("*.rt")))


def words_of(text):
    """A text in one line, without the marks of quotes, comments and tags."""
    return " ".join(re.sub(r"^ *(?:///?|>) ?|<[^>]*>", " ", text, flags=re.M).split())
