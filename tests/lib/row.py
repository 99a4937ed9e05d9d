"""Rows: what the program is given, and what it must do then. Those of one subject are in one file of
tests/program/rows, with a line `---` between two inputs.

First come some lines that say what a row shows. The last of them begins with `Source: ` and names
where the expected values come from, which is never the program. After an empty line come the name of
the row and its sections:

  name:     how the row is called
  args:     the words of the command line, apart by blanks
  status:   the exit status
  stdin:    what the program reads
  stdout:   what it must print; where the status is 3, it may print any beginning of that
  stderr:   what it must print to standard error; `stderr: any` where that is free

The lines of what is read or printed come below the section's name, each after `| `; `|` alone is an empty line.
In them `\\r`, `\\t` and `\\xNN` stand for bytes as in Python, `\\x5c` for a backslash, and a backslash at the end of a
line says that no line feed follows. A section that is left out is empty.

In place of `stdin:`, `stdout:` or `stderr:` there may be `make-stdin:` and so on. Its lines are an expression of
Python that gives the bytes; in it `file("examples/deal-1.board")` is what this file of the repository has, and
`stdin("deal-1-show")` what that row reads.

Several rows of one input are written below it: then `stdin:` comes before the first name, and the
lines below a name say what that row shows and name its source, where they are not those at the top.
"""

from functools import cache
from typing import NamedTuple, Optional

from lib.paths import ROOT, TESTS

ROWS = TESTS / "program" / "rows"
SECTIONS = {"name", "args", "status", "stdin", "stdout", "stderr", "make-stdin", "make-stdout", "make-stderr"}


class Row(NamedTuple):
    name: str
    source: str
    words: list
    status: int
    stdin: bytes
    stdout: bytes
    stderr: Optional[bytes]  # None where it is free


def text_of(lines):
    """The bytes that these lines of a section stand for."""
    text = "".join(line + "\n" for line in lines).replace("\\\n", "")
    return text.encode("ascii").decode("unicode_escape").encode("latin-1")


@cache
def contents_of(path):
    return (ROOT / path).read_bytes()


def made(lines):
    names = {"file": contents_of, "stdin": lambda name: row(name).stdin}
    return eval("\n".join(["(", *lines, ")"]), names)


def sections_of(file, lines):
    """Gives for each section the words on its own line, and the lines below it."""
    found = {}
    for line in lines:
        head, colon, rest = line.partition(":")
        if line == "|" or line.startswith("| "):
            list(found.values())[-1][1].append(line[2:])
        elif colon and head in SECTIONS and head not in found:
            found[head] = rest.strip(), []
        elif line:
            raise SystemExit(f"{file.name}: this line is none of a row: {line}")
    return found


def row_of(name, shown, sections):
    """The row of this name, by the lines that say what it shows and by its sections."""
    if len(shown) < 2 or not shown[-1].startswith("Source: "):
        raise SystemExit(f"row {name}: it must begin with what it shows and with its source")

    def contents(section):
        if f"make-{section}" in sections:
            return made(sections[f"make-{section}"][1])
        words, lines = sections.get(section, ("", []))
        return None if words == "any" else text_of(lines)

    words, status = sections["args"][0].split(), int(sections["status"][0])
    return Row(name, shown[-1].partition(" ")[2], words, status, *map(contents, ["stdin", "stdout", "stderr"]))


@cache
def written():
    """What is written of each row, by its name: the lines that say what it shows, and its sections."""
    found = {}
    for file in sorted(ROWS.glob("*.row")):
        for of_one_input in file.read_text("ascii").split("\n\n---\n\n"):
            for name, shown, sections in written_in(file, of_one_input):
                if name in found:
                    raise SystemExit(f"{file.name}: there is another row {name}")
                found[name] = shown, sections
    return found


def written_in(file, text):
    """The rows of one input: the name of each, the lines that say what it shows, and its sections."""
    front, _, rest = text.partition("\n\n")
    shared, *named = f"\n{rest}".split("\nname: ")
    above = sections_of(file, shared.splitlines())
    for part in named:
        name, _, lines = part.partition("\n")
        sections = sections_of(file, ["name:", *lines.splitlines()])
        shown = sections.pop("name")[1]
        yield name, shown or front.splitlines(), {**above, **sections}


@cache
def row(name):
    """The row with this name."""
    return row_of(name, *written()[name])


def rows():
    """All rows, in the order of their names."""
    return [row(name) for name in sorted(written())]
