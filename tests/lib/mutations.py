"""Mutants that are made by machine: in a line of a body one operator, constant or test is another, or a statement is left out."""

import ast
import re

from lib.edits import FUNCTION, Edit
from lib.paths import CRATES

# What a line may have, and what it has then: in every language, in Rust and in Python.
TURNS = [
    (" < ", " <= "), (" <= ", " < "), (" > ", " >= "), (" >= ", " > "), (" == ", " != "), (" != ", " == "), (" + 1", ""),
    (" - 1", ""), (" + ", " - "),
]
RUST = [
    (" && ", " || "), (" || ", " && "), ("..=", ".."), ("true", "false"), ("false", "true"), ("if !", "if "), (".min(", ".max("),
    (".max(", ".min("), (".is_none()", ".is_some()"), (".is_some()", ".is_none()"), (".is_empty()", ".len() == 1"),
]
PYTHON = [
    (" and ", " or "), (" or ", " and "), ("True", "False"), ("False", "True"), ("not ", ""), (" if ", " if not "), ("min(", "max("),
    ("max(", "min("), ("any(", "all("), ("all(", "any("), (" in ", " not in "),
]
NUMBER = re.compile(r"(?<![\w.'\"])(\d[\d_]*)(?![\w.'\"])")
BYTE = re.compile(r"b'([a-zA-Z0-9 :,])'")
STRING = re.compile(r'"([^"\\]+)"')
STATEMENT = re.compile(r"\s+[a-z][\w.:]*(?:::<[^>]*>)?\(.*\)\??;$")
STATEMENT_OF_PYTHON = re.compile(r"(\s+)(?:[a-z][\w.]*\(.*\)|yield .*|[\w, .]+ \+?= .*)$")
GHOST = re.compile(r"\s*(?://|#|ghost|invariant|requires|ensures|decreases|use |assert)")


def turned(line, turns=RUST):
    """Each way in which this line is turned: the new line."""
    for old, new in [*TURNS, *turns]:
        yield from (line[:it.start()] + new + line[it.end():] for it in re.finditer(re.escape(old), line))
    for it in NUMBER.finditer(line):
        yield line[:it.start(1)] + str(int(it[1].replace("_", "")) + 1) + line[it.end(1):]
    for it in BYTE.finditer(line):
        yield line[:it.start(1)] + ("y" if it[1] == "x" else "x") + line[it.end(1):]
    for it in STRING.finditer(line):
        yield line[:it.end(1) - 1] + line[it.end(1):]
    if turns is RUST and STATEMENT.match(line):
        yield ""
    if turns is PYTHON and (it := STATEMENT_OF_PYTHON.match(line)):
        yield f"{it[1]}pass"


def lines_of_bodies(lines):
    """The places of lines within bodies of functions."""
    at = 0
    while at < len(lines):
        if FUNCTION.match(lines[at]) and "const fn" not in lines[at]:
            margin = lines[at][:len(lines[at]) - len(lines[at].lstrip())]
            opening = next((i for i in range(at, len(lines)) if lines[i] == margin + "{" or lines[i].endswith(("{", "{}"))
                            and not GHOST.match(lines[i]) and lines[i].startswith(margin)), at)
            closing = next((i for i in range(opening + 1, len(lines)) if lines[i] == margin + "}"), opening)
            yield from range(opening + 1, closing)
            at = closing
        at += 1


def lines_of_functions(text):
    """The places of lines within functions of Python, but for their first lines and their comments."""
    for function in ast.walk(ast.parse(text)):
        if isinstance(function, ast.FunctionDef):
            for statement in function.body[bool(ast.get_docstring(function)):]:
                yield from range(statement.lineno - 1, statement.end_lineno)


def chosen_of(found, count):
    """So many of these mutants, from all parts of them, by name: each is a file, the number of a line, the line and the new one."""
    chosen = found if len(found) < count else [found[number * len(found) // count] for number in range(count)]
    edits = {}
    for file, at, old, new in chosen:
        name = f"{file}:{at}" + (f":{len(edits)}" if f"{file}:{at}" in edits else "")
        edits[name] = Edit(name, [(str(file), old, new)])
    return edits


def made(crate, count):
    """So many mutants of a crate, by name, from all of its lines that can be turned and are once in their file."""
    found = []
    for path in sorted((crate / "src").rglob("*.rt")):
        text = path.read_text()
        lines = text.split("\n")
        for at in lines_of_bodies(lines) if not {"laws.rt", "tests.rt", "tests"} & {*path.parts} else ():
            if lines[at].isascii() and not GHOST.match(lines[at]) and text.count(lines[at]) == 1:
                found += [(path.relative_to(crate), at + 1, lines[at], new) for new in turned(lines[at])]
    return {name: [edit] for name, edit in chosen_of(found, count).items()}


def is_python(text):
    try:
        ast.parse(text)
    except SyntaxError:
        return False
    return True


def made_of_scripts(root, scripts, count):
    """So many mutants of these scripts, by name, as `made` makes those of a crate."""
    found = []
    for script in scripts:
        text = (root / script).read_text()
        lines = text.split("\n")
        for at in sorted(set(lines_of_functions(text))):
            if text.count(lines[at]) == 1:
                found += [(script, at + 1, lines[at], new) for new in turned(lines[at], PYTHON)
                          if is_python(text.replace(lines[at], new))]
    return chosen_of(found, count)


def all_made(count):
    """So many mutants of each crate."""
    return {name: found for name, crate in CRATES.items() if (found := made(crate, count))}


def count_and_names(words):
    """How many mutants the words ask to be made of each crate, or None, and the names that come after."""
    return (int(words[1]), words[2:]) if words[:1] == ("--made",) else (None, words)
