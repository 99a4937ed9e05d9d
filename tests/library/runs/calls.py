"""Calls of fcanon_runs.h in its shared library."""

import ctypes
import secrets
from typing import NamedTuple

from lib.headers import FORMATS, GAMES, LINES, MEANINGS, TASKS

NO_ROOM = next(number for number, meaning in MEANINGS.items() if meaning.startswith("too little room"))


class Request(ctypes.Structure):
    _fields_ = [(name, ctypes.c_uint32) for name in ("task", "format", "game", "any_size")] + [("seed", ctypes.c_uint64)]


class Written(ctypes.Structure):
    _fields_ = [(name, ctypes.c_size_t) for name in ("length", "records", "refused")]


class ImportRequest(ctypes.Structure):
    _fields_ = [(name, ctypes.c_uint32) for name in ("game", "lines")]


class Imported(ctypes.Structure):
    _fields_ = [("written", Written), ("noted", ctypes.c_size_t)]


class Printed(NamedTuple):
    text: bytes
    said: bytes  # by `import` on standard error
    records: int
    refused: int


class Runs:
    """The calls of the library in this file."""

    def __init__(self, path):
        self.library = ctypes.CDLL(path)
        text = [ctypes.c_char_p, ctypes.c_size_t]
        self.library.fcanon_run.argtypes = [ctypes.POINTER(Request), *text, *text, ctypes.POINTER(Written)]
        self.library.fcanon_import.argtypes = [ctypes.POINTER(ImportRequest), *text, *text, *text, ctypes.POINTER(Imported)]

    def run(self, task, text, form="lines", game="freecell", any_size=False):
        """What `fcanon TASK` prints of these bytes; form is that of table and count."""
        request = Request(TASKS.index(task), FORMATS.index(form), GAMES.index(game), any_size, secrets.randbits(64))
        written, answer = Written(2 * len(text) + 4096), NO_ROOM
        while answer == NO_ROOM:
            output = ctypes.create_string_buffer(written.length)
            answer = self.library.fcanon_run(request, text, len(text), output, len(output), written)
        return printed(answer, written, output)

    def import_text(self, text, game="freecell", lines="unsaid"):
        """The collection that `fcanon import` makes of these bytes; lines that may be columns or rows are what is said."""
        request = ImportRequest(GAMES.index(game), LINES.index(lines))
        made, answer = Imported(Written(2 * len(text) + 4096), 4096), NO_ROOM
        while answer == NO_ROOM:
            output, notes = ctypes.create_string_buffer(made.written.length), ctypes.create_string_buffer(made.noted)
            answer = self.library.fcanon_import(request, text, len(text), output, len(output), notes, len(notes), made)
        return printed(answer, made.written, output, notes, made.noted)


def printed(answer, written, output, notes=b"", noted=0):
    if answer:
        raise ValueError(MEANINGS.get(answer, f"answer {answer}"))
    said = ctypes.string_at(notes, noted)
    return Printed(ctypes.string_at(output, written.length), said, written.records, written.refused)
