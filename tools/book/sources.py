"""What the book is made of: definitions, contracts and laws as tests/lib/definitions.py reads them, and beside them functions
with their code, mutants, and written proofs."""

import re
import sys
from functools import cache
from pathlib import Path

sys.dont_write_bytecode = True
sys.path.append(str(Path(__file__).resolve().parent.parent.parent / "tests"))
from lib import definitions, trust  # noqa: E402
from lib.paths import CRATES, ROOT  # noqa: E402

FUNCTION = re.compile(r"( *)((?:pub(?:\(\w+\))? )?)(?:const |unsafe |extern \"C\" )*fn (\w+)")
OWNER = re.compile(r"((?:pub(?:\(\w+\))? )?)(impl|trait)\b(.*)")
ITEM = re.compile(r"pub (?:const|static|struct|enum|type|trait) (\w+)")
CLAUSE = re.compile(r"\s*(?:ensures|requires|invariant|decreases)\b")
LEMMA = re.compile(r"^(?: +(?=pub |abbrev ))?(?:(?:abbrev|unfoldable|pub|record|data) )*([^\s:({-][^\s:({]*) [:({]", re.M)


LAW_MODULES = sorted({path.relative_to(CRATES["fc_laws"] / "src").parts[0].removesuffix(".rt")
                      for path in (CRATES["fc_laws"] / "src").rglob("*.rt")} - {"lib"})


@cache
def text_of(path):
    return path.read_text()


def is_law(piece):
    """Whether a function is a law, which has no code."""
    return piece.is_public and (piece.crate == "fc_laws" or piece.file == "laws.rt")


def comment_of(it):
    """The comment above a definition, without marks for believe and headings, and the lines below it."""
    lines = [line for line in it.commented if not re.match(r"(?:pub )?(?:use|mod) ", line)]
    place = next((at for at, line in enumerate(lines) if not re.match(r"\s*--", line)), len(lines))
    said = [line for line in lines[:place] if not re.match(r"\s*-- (?:said again|-{8}|={8})", line)]
    return " ".join(re.sub(r"^\s*-- ?(?:-{4} )?", "", line) for line in said), "\n".join(lines[place:])


class Piece:
    """Some lines of a file of code: a function, or what is between functions."""

    def __init__(self, crate, file, first, lines, owner="", match=None, is_public=False):
        self.crate, self.file, self.first, self.lines, self.owner = crate, file, first, lines, owner
        self.name = match[3] if match else None
        self.is_public, self.anchor, self.edits, self.proofs, self.cites = is_public, None, [], [], set()
        self.doc, self.head, self.body, self.around = [], [], [], ""  # around: the line of its impl or trait

    def part(self, indent):
        """Takes a function apart: its comment, its head with the clauses, its body."""
        lines = [line[len(indent):] if line.startswith(indent) else line for line in self.lines]
        start = next(place for place, line in enumerate(lines) if FUNCTION.match(line))
        self.doc = [line.lstrip("/").removeprefix(" ") for line in lines[:start] if line.startswith("//")]
        end = end_of_head(lines, start)
        self.head = [line for line in lines[:end] if not line.startswith("//")]
        self.body = lines[end:]

    @property
    def signature(self):
        """The head before the clauses, and the clauses."""
        place = next((at for at, line in enumerate(self.head) if CLAUSE.match(line)), len(self.head))
        return self.head[:place], self.head[place:]


def end_of_head(lines, start, indent=""):
    """The place where the body begins, or the end of a head without one."""
    in_clauses, depth = False, 0  # depth: the braces of a clause that are open
    for place in range(start, len(lines)):
        line = lines[place][len(indent):]
        in_clauses = in_clauses or CLAUSE.match(line) is not None
        depth += (line.count("{") - line.count("}")) * in_clauses
        if line in ("{", "{}"):
            return place
        if line.endswith("};" if in_clauses else ("{", "{}", ";")) and not depth:
            return place + 1
    return len(lines)


def end_of_function(lines, start, indent):
    """The place after the last line of the function that begins here."""
    end = end_of_head(lines, start, indent)
    last = lines[end - 1]
    if last.endswith((";", "{}")) or end == len(lines):
        return end
    if lines[end] == f"{indent}{{}}":
        return end + 1
    return lines.index(f"{indent}}}", end) + 1


def start_with_comment(lines, place, before):
    """The place where the comment and the attributes above a line begin."""
    while place > before and re.match(r"\s*(?://(?!!)|#\[)", lines[place - 1]):
        place -= 1
    return place


def pieces_of(crate, path, file):
    """The pieces of a file of code, in their order."""
    lines, done, place, owner, shown, around = text_of(path).splitlines(), 0, 0, "", "", ""
    while place < len(lines):
        if found := OWNER.match(lines[place]):
            words = re.sub(r"^<[^>]*(?:<[^>]*>[^>]*)*>", "", found[3].strip()).partition(" where ")[0]
            owner, shown = words.split("{")[0].strip(), found[2] if found[2] == "impl" else found[1] + found[2]
            around = lines[place]
        if not (found := FUNCTION.match(lines[place])):
            place += 1
            continue
        owner = owner if found[1] else ""
        start, end = start_with_comment(lines, place, done), end_of_function(lines, place, found[1])
        if any(line.strip() for line in lines[done:start]):
            yield Piece(crate, file, done, lines[done:start])
        is_public = found[2] == "pub " or bool(owner) and (" for " in owner or shown == "pub trait")
        piece = Piece(crate, file, start, lines[start:end], owner, found, is_public)
        piece.part(found[1])
        piece.around = around if owner else ""
        yield piece
        done = place = end
    if any(line.strip(" }") for line in lines[done:]):
        yield Piece(crate, file, done, lines[done:])


class Edit:
    """A mutant: what it says of itself by its words, and the texts that it replaces."""

    def __init__(self, crate, name, lines, is_must_fail):
        self.crate, self.name, self.is_must_fail, self.piece = crate, name, is_must_fail, None
        pairs = [line.split(": ", 1) for line in lines if ": " in line]
        self.said = dict(reversed(pairs))
        self.changes = [(key, words) for key, words in pairs if key in ("file", "old", "new", "right")]


def edits_of(crate):
    """The mutants of a crate, those of must-fail first."""
    folder = CRATES[crate]
    for path in sorted((folder / "must-fail").glob("*.edit")):
        yield Edit(crate, path.stem, [line.removeprefix("# ") for line in path.read_text().splitlines()], True)
    listed = folder / "wrong-bodies.edits"
    for entry in listed.read_text().split("\nedit: ")[1:] if listed.exists() else []:
        name, *lines = entry.splitlines()
        yield Edit(crate, name, lines, False)


class Proof:
    """A written proof: a file of lemmas, or the answers or invariants of one function."""

    def __init__(self, crate, path):
        parts = path.relative_to(CRATES[crate] / "proofs").with_suffix("").parts
        self.crate, self.parts, self.text, self.piece = crate, parts, path.read_text(), None
        self.is_of_function = parts[-1] in ("Answers", "Invariants")
        self.anchor = "/".join(parts).removesuffix("/Answers")
        self.module = ".".join(["Rattle", crate, "proofs", *parts])
        self.lemmas = set(LEMMA.findall(self.text)) - {"use", "--"}


def proofs_of(crate):
    return (Proof(crate, path) for path in sorted((CRATES[crate] / "proofs").rglob("*.antt")))


class Sources:
    """All that pages are made of."""

    def __init__(self):
        self.definitions = definitions.Repository()
        self.pieces = {crate: list(self.pieces_in(crate)) for crate in CRATES}
        self.edits = {crate: list(edits_of(crate)) for crate in CRATES}
        self.proofs = {crate: list(proofs_of(crate)) for crate in CRATES}
        self.functions = {crate: [piece for piece in pieces if piece.name] for crate, pieces in self.pieces.items()}
        for crate in CRATES:
            self.join(crate)

    def pieces_in(self, crate):
        folder = CRATES[crate] / "src"
        paths = [path for path in folder.rglob("*.rt") if "tests" not in path.with_suffix("").parts]
        for path in sorted(paths, key=lambda it: (it.stem != "lib", it.with_suffix("").parts)):
            names = definitions.imports_of(text_of(path))
            for piece in pieces_of(crate, path, str(path.relative_to(folder))):
                own = {**names, **definitions.imports_of("\n".join(piece.lines))}
                clauses = "\n".join(piece.signature[1] if piece.name else piece.lines)
                piece.names, piece.cites = own, self.definitions.homes_in(clauses, own)
                yield piece

    def join(self, crate):
        """Gives each function its mutants and its proofs."""
        for edit in self.edits[crate]:
            edit.piece = self.function_around(crate, edit)
            if edit.piece:
                edit.piece.edits.append(edit)
        for proof in self.proofs[crate]:
            if proof.is_of_function:
                proof.piece = self.function_at(crate, proof.parts[:-1])
                if proof.piece:
                    proof.piece.proofs.append(proof)

    def function_around(self, crate, edit):
        """The function that has the first text that the mutant replaces."""
        file, old = edit.said["file"], edit.said["old"]
        text = text_of(CRATES[crate] / file)
        line = text[:text.find(old) + len(old) - len(old.lstrip())].count("\n")
        for piece in self.functions[crate]:
            if f"src/{piece.file}" == file and piece.first <= line < piece.first + len(piece.lines):
                return piece
        return None

    def function_at(self, crate, parts):
        """The function that the path of a proof names: by its name, then its type and its file."""
        def fits(piece):
            owner = re.findall(r"\w+", piece.owner)
            near = [part for part in parts[:-1] if any(part.startswith(word) and len(word) > 1 for word in owner)]
            files = piece.file.removesuffix(".rt").split("/")
            return (bool(near) == bool(owner), sum(part in files for part in parts[:-1]))
        named = [piece for piece in self.functions[crate] if piece.name == parts[-1].lstrip("+")]
        return max(named, key=fits, default=None)
