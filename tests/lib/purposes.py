"""The lines of the crates by what they are for.

A file of code is for the purpose of the first pattern that its module fits, and so are the answers and invariants of its
functions. A file of definitions or of lemmas is shared among the files that import it, by their lines: what nothing imports is
for the purpose of its crate. docs/DECISIONS.md says what a user has of each purpose.
"""

import re
from collections import Counter

from lib.paths import CRATES, ROOT

FOLDERS = {"src": "rt", "specs": "antt", "proofs": "antt"}
ROUNDS = 40  # of sharing, after which no figure moves by a line
PURPOSES = [
    (r"fc_closed/|fcanon_c/closed$|fc_laws/.*closed|fc_collect/commands/closed", "closed collections"),
    (r"fc_laws/.*(_again|_stay|_stay_in_what_is_printed|said_again)$", "reading again"),
    (r"fc_import/", "import"),
    (r"fcanon_runs/", "runs over memory"),
    (r"fc_bytes/(class_hash(/.*)?|child_hash(/.*)?|calls/(child_hashes(/.*)?|keys|sums)|hash)$|fcanon_c/(sums|keys)$|fc_laws/(class_hashes|collections/hashes)(/|$)", "hashes"),
    (r"fc_bytes/|fcanon_c/|fc_laws/bytes(/|$)", "library"),
    (r"fc_record/printing/(table|object|symmetries)$|fc_collect/commands/(count|same|unique)$", "further commands"),
    (r"fc_laws/collections/(figures|same|symmetries|table|unique)(/|$)", "further commands"),
    (r"fc_collect/streams/limits$|fc_laws/.*(joined|piece)", "any size"),
    (r"fc_card/lanes$|fc_canon/(codes|key_parts|board_key)$", "keys"),
    (r"fc_text/(printed|letters|card_images)$|fc_canon/canonical/(leading|pairs)$|fc_board/columns$", "quick forms"),
    (r"fc_laws/|fc_tool/laws$", "laws"),
    (r"fcanon/tests", "tests"),
    (r"", "specification"),
]
USE = re.compile(r"\buse Rattle\.((?:[^;\n{}]|\{(?:[^{}]|\{(?:[^{}]|\{[^{}]*\})*\})*\})+)")


def purpose_of(module):
    return next(purpose for pattern, purpose in PURPOSES if re.match(pattern, module))


def paths_in(text):
    """The paths of an import, as `a.b` and `a.c` of `a.{b, c}`."""
    head, brace, rest = text.partition("{")
    if not brace:
        yield head.split(" as ")[0].strip()
        return
    depth, part = 0, ""
    for sign in rest[:rest.rindex("}")] + ",":
        depth += (sign == "{") - (sign == "}")
        if sign == "," and not depth:
            yield from (head.strip() + path for path in paths_in(part))
            part = ""
        else:
            part += sign


class File:
    """A file of a crate, with its lines and what it is for: shares of purposes that make 1."""

    def __init__(self, crate, folder, path):
        inner = path.relative_to(CRATES[crate] / folder).with_suffix("")
        self.crate, self.folder, self.text = crate, folder, path.read_text()
        self.lines = self.text.count("\n")
        self.name = ".".join([crate, folder, *inner.parts])
        self.module = "/".join([crate, *inner.parts])
        self.users = []
        self.shares = Counter({purpose_of(self.module if folder == "src" else f"{crate}/"): 1.0})

    def imports(self):
        for found in USE.finditer(self.text):
            yield from paths_in(found[1])


def files():
    for crate, place in CRATES.items():
        for folder, end in FOLDERS.items():
            yield from (File(crate, folder, path) for path in sorted((place / folder).rglob(f"*.{end}")))


def link(found):
    """Tells each file which files import it; gives those whose purposes are shared."""
    by_name = {it.name: it for it in found}
    for it in found:
        for path in it.imports():
            parts = path.split(".")
            used = next((by_name[name] for end in range(len(parts), 1, -1) if (name := ".".join(parts[:end])) in by_name), None)
            if used and used is not it:
                used.users.append(it)
    return [it for it in found if it.folder != "src" and it.users]


def settle_answers(found):
    """Answers and invariants are for the purpose of the module of their function."""
    modules = {it.module: it for it in found if it.folder == "src"}
    for it in found:
        if it.folder == "proofs" and it.name.endswith((".Answers", ".Invariants", ".Proof")):
            parts = it.module.split("/")[:-1]
            owner = next((modules[name] for end in range(len(parts), 1, -1) if (name := "/".join(parts[:end])) in modules), None)
            it.shares = Counter({purpose_of("/".join(parts)) if it.crate == "fc_laws" or not owner else purpose_of(owner.module): 1.0})


def lines_by_purpose():
    """For each purpose its lines of code, and those of definitions and proofs."""
    found = list(files())
    settle_answers(found)
    shared = link(found)
    for _ in range(ROUNDS):
        for it in shared:
            total = sum(user.lines for user in it.users) or 1
            shares = Counter()
            for user in it.users:
                shares.update({purpose: user.lines * share / total for purpose, share in user.shares.items()})
            it.shares = shares
    figures = {}
    for it in found:
        for purpose, share in it.shares.items():
            kind = "code" if it.folder == "src" else "proof"
            figures[purpose, kind] = figures.get((purpose, kind), 0) + it.lines * share
    return {f"lines of {purpose}, {kind}": round(figure) for (purpose, kind), figure in sorted(figures.items())}
