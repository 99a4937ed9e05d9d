"""Where all things are in the book, and what the words of documents, contracts and definitions are linked to."""

import re
from functools import cache
from html import escape

from markup import CALL, from_page, inline, link, linked
from sources import CRATES, ITEM, LAW_MODULES, definitions, is_law, trust

METHOD = re.compile(r"(?<!\bself)\.([a-z_]\w*)\(")
KINDS = ("Function", "Type", "Laws", "Definitions", "Crate")
# What names something in a document, as `fc_canon::{canon, same}`; and the columns of tables whose plain words do too, since
# elsewhere such a word is one of a command.
NAMES = re.compile(r"\w+(?:::\w+)*(?:::\{[\w, ]+\})?")
COLUMNS = ("Function", "Definitions", "Crate", "Crates", "Laws", "Laws that are promises themselves", "Carried by")


def module_path(module):
    """A module of definitions as a prefix of anchors: nothing for Lib."""
    return ".".join(module.split(".")[3:])


def page_of_code(crate, file):
    """The page that a file of code is on."""
    module = file.partition("/")[0].removesuffix(".rt")
    return f"law-{module}.html" if crate == "fc_laws" and module in LAW_MODULES else f"crate-{crate}.html"


def types_of(pieces):
    """The public types, traits and constants, each with the piece that has it."""
    return [(name, piece) for piece in pieces for name in ITEM.findall("\n".join(piece.lines)) if not piece.name]


def target_of_definition(home, it):
    inner = module_path(home[0])
    return f"def-{it.crate}.html#{inner + '.' if inner else ''}{it.name}"


def gathered(triples):
    """What is last of each of these, by the first two."""
    found = {}
    for first, second, last in triples:
        found.setdefault((first, second), []).append(last)
    return found


def lemma_target(proof, name):
    return f"proof-{proof.crate}.html#{proof.anchor}.{name}"


def rank(found, homes, column):
    """What a name of a document means first: in the column of functions a function or its type, else what the first crate has."""
    kind, crate, _ = found
    place = KINDS.index(kind)
    near = homes.index(crate) if crate in homes else len(homes)
    return (place, near) if column == "Function" else (near, place)


def as_it_is(text, heading="", column=None):
    """What is between backticks, without links."""
    return f"<code>{escape(text, False)}</code>"


def part_of(file):
    """The anchor of what a file of code has."""
    return "part." + file.removesuffix(".rt").replace("/", ".")


def crates_in(text):
    return [word for word in re.findall(r"\w+", text) if word in CRATES]


def only(found):
    """What is found, where it is one."""
    found = [*found]
    return found[0] if len(found) == 1 else None


@cache
def words_of_owner(owner):
    """The type that functions belong to, and the trait: of `Game for Board<R>` both, of `Board<R>` it alone."""
    return [re.match(r"\w*", part.rpartition("::")[2])[0] for part in re.split(r" for |: ", owner) if part]


@cache
def owners_of(piece):
    """What a name before `::` stands for within a function: `Self` for its type, a parameter for the trait that bounds it."""
    own = words_of_owner(piece.owner)[-1 if " for " in piece.owner else 0:][:1]
    bounds = re.findall(r"\b([A-Z]\w*): (?:\w+::)*([A-Z]\w*)", f"{piece.around} {' '.join(piece.signature[0])}")
    return {**dict(bounds), **{"Self": name for name in own}}


def proof_link(proof, words):
    return link(f"proof-{proof.crate}.html#{proof.anchor}", words)


def edit_link(edit):
    return link(f"wrong-{edit.crate}.html#{edit.name}", edit.name)


class Links:
    """Where all things are in the book."""

    def __init__(self, sources):
        self.sources, self.definitions = sources, sources.definitions
        self.functions = [piece for crate in CRATES for piece in sources.functions[crate]]
        self.targets = {home: target_of_definition(home, it) for home, it in self.definitions.found.items()}
        for crate in CRATES:
            self.place_functions(crate)
        self.by_name = self.names()
        self.types = {(crate, name): target for name, found in self.by_name.items() for kind, crate, target in found if kind == "Type"}
        self.private = {piece.target for piece in self.functions if not piece.is_public}
        self.parts_of_laws = {tuple(re.split(r"[/.]", piece.file)[:2]): f"{piece.page}#{part_of(piece.file)}"
                              for piece in self.functions if piece.crate == "fc_laws" and "/" in piece.file}
        self.of_name = gathered((piece.crate, piece.name, piece) for piece in self.functions)
        self.all_of_name = {}
        for piece in self.functions:
            self.all_of_name.setdefault(piece.name, []).append(piece)
        self.cited = gathered((*other, home) for home in self.targets for other in self.definitions.cited_by(home))
        self.citing = gathered((*home, piece) for piece in self.functions for home in piece.cites)
        proofs = [proof for of_crate in sources.proofs.values() for proof in of_crate]
        self.lemmas = {proof.module: proof for proof in proofs if not proof.is_of_function}

    def place_functions(self, crate):
        """Gives each function its page and its anchor, which is its name where that is free."""
        taken = set()
        for piece in sorted(self.sources.functions[crate], key=lambda it: not it.is_public):
            piece.page = page_of_code(crate, piece.file)
            owner = ".".join([piece.file.removesuffix(".rt").replace("/", "."), *re.findall(r"\w+", piece.owner)])
            anchor = piece.name if (piece.page, piece.name) not in taken else f"{owner}.{piece.name}"
            while (piece.page, anchor) in taken:
                anchor += "'"
            taken.add((piece.page, anchor))
            piece.anchor, piece.target = anchor, f"{piece.page}#{anchor}"

    def names(self):
        """For each name what has it: whether a function, a law or a module of them, a type or a definition, in which crate, and
        where."""
        found = {}
        for home, it in self.definitions.found.items():
            found.setdefault(it.name, []).append(("Definitions", it.crate, self.targets[home]))
        for piece in sorted(self.functions, key=lambda it: not it.is_public):
            found.setdefault(piece.name, []).append(("Laws" if is_law(piece) else "Function", piece.crate, piece.target))
        for module in LAW_MODULES:
            found.setdefault(module, []).append(("Laws", "fc_laws", f"law-{module}.html"))
        for crate in CRATES:
            found.setdefault(crate, []).append(("Crate", crate, f"crate-{crate}.html"))
            for name, piece in types_of(self.sources.pieces[crate]):
                found.setdefault(name, []).append(("Type", crate, f"{page_of_code(crate, piece.file)}#type.{name}"))
        return found

    # ---- links

    def name(self, word, crates=(), column=None):
        """Where the word of a document is: what the column is of and these crates have, else what they or the laws have, else
        what has it alone."""
        homes, found = (*crates, "fc_laws"), self.by_name.get(word, [])
        near = [it for it in found if it[1] in homes]
        alike = [it for it in found if it[0] == column]
        both = [it for it in near if it[0] == column]
        if not both and len(alike) == 1:
            return alike[0][2]
        left = both or near or (found if len(found) == 1 else [])
        return min(left, key=lambda it: rank(it, homes, column), default=(None,) * 3)[2]

    def code(self, text, heading=""):
        """What is between backticks, with links to what it names."""
        return f"<code>{linked(text, lambda word: self.name(word, crates_in(heading)))}</code>"

    def named(self, text, heading="", column=None):
        """What is between backticks in a document, with links where it names what has a contract, laws and what these cite; of a
        command, an option or a path no word is one. After `::` are names of the crate before it."""
        crates, fronts = crates_in(text) if "::" in text else [], re.findall(r"\w+(?=::)", text)
        owner = next((front for front in reversed(fronts) if front[:1].isupper()), None)

        def target(word):
            if part := self.part_of_laws(word, fronts):
                return part
            if word in fronts:
                return self.front(word, crates)
            if owner:
                return self.method(owner, word)
            found = self.name(word, crates or crates_in(heading), column)
            is_near = not crates or found in [it[2] for it in self.by_name.get(word, []) if it[1] in crates]
            return found if is_near and (column == "Function" or found not in self.private) else None
        is_name = NAMES.fullmatch(text) and (column in COLUMNS or re.search("::|_|[A-Z]", text))
        first, path, _ = text.partition("::")
        is_known = column in COLUMNS or first in self.by_name and any(map(target, trust.names_in(f"`{text}`")))
        if not is_name or path and not is_known:
            return as_it_is(text)
        return f"<code>{linked(text, target)}</code>"

    def front(self, word, crates):
        """What is before `::`: a crate, a module of laws or a type, and nothing else of that name."""
        found = [it for it in self.by_name.get(word, []) if it[0] in ("Crate", "Type") or it[0] == "Laws" and "#" not in it[2]]
        return (only(it for it in found if it[1] in crates) or only(found) or (None,) * 3)[2]

    def part_of_laws(self, word, fronts):
        """The part of this name of a module of laws, which is before it, or which alone has one."""
        found = [(module, target) for (module, name), target in self.parts_of_laws.items() if name == word]
        near = only(it for it in found if it[0] in fronts) or only(found if fronts[:1] == [word] else [])
        return near and near[1]

    def method(self, owner, name):
        """The function of this name that belongs to a type or a trait."""
        found = [it for it in self.all_of_name.get(name, []) if owner in words_of_owner(it.owner)]
        best = only(it for it in found if it.is_public and " for " not in it.owner) or only(found)
        return best.target if best else None

    def comment(self, text, crate):
        """A comment: what is between backticks is linked as this crate names it."""
        return inline(text, lambda words: self.code(words, crate))

    def of_definition(self, home, file):
        """The words of a definition are links as its module imports them."""
        def target(word):
            other = self.definitions.home_of(word, home[0])
            if other:
                return from_page(self.targets[other], file) if other != home else None
            return self.of_type(*self.definitions.imports[home[0]].get(word, ("", "")))
        return target

    def of_clauses(self, piece, file):
        """The words of clauses are links as the file of code imports them."""
        def target(word):
            if word not in piece.names:
                return None
            module, name = piece.names[word]
            home = self.definitions.home_of(name, module)
            return from_page(self.targets[home] if home else self.of_type(module, name) or "", file) or None
        return target

    @cache
    def of_type(self, module, name):
        """Where the type of Rust is that a name of definitions stands for, or whose variant it is."""
        crate, *parts = re.findall(r"(?<=^Rattle\.)\w+(?=\.specs\.declared)|(?<=\.declared\.)[\w.]+", module) or [""]
        words = ".".join(parts).removesuffix(".TheVariants").split(".")
        return self.types.get((crate, words[-1]))

    def of_types(self, piece, file):
        """In the head of a function the public types of its crate are links."""
        return lambda word: from_page(self.types.get((piece.crate, word), ""), file)

    def called_by(self, piece, owner, name):
        """The function of the crate that a call names: of a type or a trait the one that this has, else the one that has no owner.
        Of what type a value before a dot is, but for `self`, is not known."""
        owner = owners_of(piece).get("Self" if owner == "self" else owner, owner)
        if not owner[:1].isupper():
            crate = owner if owner in CRATES else piece.crate
            return only(it for it in self.of_name.get((crate, name), []) if not it.owner and it is not piece)
        found = [it for it in self.all_of_name.get(name, []) if owner in words_of_owner(it.owner) and it is not piece]
        near = [it for it in found if it.crate == piece.crate] or found
        return only([it for it in near if " for " not in it.owner] or near)

    def of_calls(self, piece, file):
        """In a body the names of functions are links."""
        def target(owner, name):
            other = self.called_by(piece, owner, name)
            return from_page(other.target, file) if other else None
        return target

    def called_from(self, piece):
        """The function and what it calls in its crate, directly or not, each once."""
        found, left = [], [piece]
        while left:
            piece = left.pop()
            if piece not in found:
                found.append(piece)
                left += self.calls_in(piece)
        return found

    @cache
    def calls_in(self, piece):
        """What a function calls in its crate by a name or a method, as often as it does."""
        body = "\n".join(piece.body)
        return [*(other for call in CALL.findall(body) if (other := self.called_by(piece, *call))),
                *(other for name in METHOD.findall(body) for other in self.only_method(piece, name))]

    def only_method(self, piece, name):
        """The method of that name, if the crate has one alone: one after a dot may be it."""
        found = self.of_name.get((piece.crate, name), [])
        return found if len(found) == 1 and found[0].owner and found[0] is not piece else []
