"""The mutants of a crate, as its wrong-bodies.edits and the files of its folder must-fail have them."""

import re

from lib.paths import CRATES, TESTS

FUNCTION = re.compile(r"\s*(?:pub(?:\((?:crate|super)\))? )?(?:const )?(?:unsafe )?(?:extern \"C\" )?fn (\w+)")
ITEM = re.compile(r"(?:pub(?:\((?:crate|super)\))? )?(?:static|const|struct|enum|impl|trait)\b")


class Edit:
    """A mutant, or the control of one: its name and, for each text that it replaces, the file, the text and the new one.

    A twin may have an answer of its own in a file of proofs, where `\\n` stands for the end of a line.
    """

    def __init__(self, name, pairs, right=False):
        self.name = name
        self.pairs = pairs
        self.right = right

    def function(self, crate):
        """The name of the function that the edit is in, or None if it is in none, or in several."""
        names = {enclosing((crate / file).read_text(), old) for file, old, _ in self.pairs if file.endswith(".rt")}
        return names.pop() if len(names) == 1 else None

    def plant(self, crate):
        """Replaces the texts, and returns whether each of them was there once."""
        for file, old, new in self.pairs:
            text = (crate / file).read_text()
            if text.count(old) != 1:
                return False
            (crate / file).write_text(text.replace(old, new.replace("\\n", "\n") if file.endswith(".antt") else new))
        return True


def enclosing(text, old):
    """The name of the function that this text begins, or else of the one around it, or None if it is in none."""
    if found := FUNCTION.match(old):
        return found[1]
    lines = text[: text.find(old) + len(old) - len(old.lstrip()) + 1].split("\n")
    depth = len(lines[-1]) - len(lines[-1].lstrip())
    for line in reversed(lines[:-1]):
        indent = len(line) - len(line.lstrip())
        if not line.strip() or indent > depth or indent == depth and not FUNCTION.match(line):
            continue
        if found := FUNCTION.match(line):
            return found[1]
        if ITEM.match(line.lstrip()):
            return None
        depth = indent
    return None


def pairs_of(lines, word="new"):
    """The file, old and new texts of an edit's lines, of which several pairs may be in one file; or, by their word, the right ones."""
    file, old, pairs = None, None, []
    for line in lines:
        key, _, text = line.removeprefix("# ").partition(": ")  # (`rt ci` reads no word `right`, so in must-fail it is a comment)
        if key == "file":
            file = text
        elif key == "old":
            old = text
        elif key == word or line == f"{word}:":
            pairs.append((file, old, text))
    return pairs


def bodies_of(name, lines):
    """The mutant of these lines, and its control if they have one."""
    right = pairs_of(lines, "right")
    return [Edit(name, pairs_of(lines)), *([Edit(name, right, right=True)] if right else [])]


def edits_of(crate):
    """All edits of a crate, by name, each with its control if it has one."""
    edits = {}
    listed = crate / "wrong-bodies.edits"
    for entry in listed.read_text().split("\nedit: ")[1:] if listed.exists() else []:
        name, *lines = entry.split("\n")
        edits[name] = bodies_of(name, lines)
    for path in sorted((crate / "must-fail").glob("*.edit")):
        if path.stem in edits:
            raise SystemExit(f"{crate.name}: {path.stem} is in wrong-bodies.edits and in must-fail")
        edits[path.stem] = bodies_of(path.stem, path.read_text().split("\n"))
    return edits


def all_edits():
    """The edits of each crate that has some, by its name."""
    return {name: found for name, crate in CRATES.items() if (found := edits_of(crate))}


def chosen_of(names, edits):
    """The edits of each crate that these names are of, and the names that are of none."""
    chosen, unknown = {}, []
    for name in names or edits:
        crate, slash, edit = name.removesuffix(".edit").partition("/")
        wanted = [edit] if slash else list(edits.get(crate, {}))
        if not wanted or not set(wanted) <= set(edits.get(crate, {})):
            unknown.append(name)
        else:
            chosen[crate] = sorted({*chosen.get(crate, []), *wanted})
    return chosen, unknown


def survivors():
    """Why the mutants survive that tests/gate/survivors names, by their names: each line that is not indented is the reason of those below."""
    found, reason = {}, ""
    for line in (TESTS / "gate" / "survivors").read_text().splitlines():
        if line.startswith(" "):
            found |= dict.fromkeys(line.split(), reason)
        elif not line.startswith("#"):
            reason = line
    return found
