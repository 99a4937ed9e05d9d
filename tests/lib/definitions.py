"""The definitions of the crates, and what contracts and laws cite of them."""

import re

from lib.paths import CRATES
from lib.trust import chapters

ASIDE = {"inside", "laws", "packing", "reader", "writer"}
WORD = re.compile(r"[A-Za-z_◌][\w'◌-]*")
DEFINED = re.compile(r"\s*(?:(?:abbrev|unfoldable|pub|record|data|mutual)\s+)*([^\s:({]+)")
HEADING = re.compile(r"-- (?:={8}|-{8}) ")
USE = re.compile(r"^(?:pub |ghost )*use ([^;]*?)(?:;|$(?!\n  ))", re.M | re.S)
USE_IN_CODE = re.compile(r"^ *(?:pub |pub\(crate\) )?(?:ghost )?use ([^;]*?);", re.M | re.S)  # in a block too
PUBLIC = re.compile(r"^( *)pub (?:const |unsafe |extern \"C\" )*fn (\w+)(.*?)^\1\{", re.M | re.S)
SEEN = re.compile(r"^(?:pub trait (\w+)|pub struct (\w+)|impl\b[^\n]* Model for (\w+)).*?^\}", re.M | re.S)
METHOD = re.compile(r"^    fn (\w+)(.*?)(?:^    \{|;$)", re.M | re.S)  # of a trait
GHOST = re.compile(r"ghost \w+ ?[:=] \{(.*?)\}", re.S)
SIGN = re.compile(r"[{},]|[^{},]+")  # of the tree of a `use`


class Definition:
    """Some lines of a file of definitions: its name, the crate, whether it is aside, its text and the laws that say it again;
    the same lines with their comments, and the heading that they are under."""

    def __init__(self, name, crate, module, text, laws, lines, heading):
        self.name, self.crate, self.module, self.text, self.laws = name, crate, module, text, laws
        self.commented, self.heading = lines, heading
        self.aside = bool(ASIDE & set(module.split(".")))
        self.lines = len(text.splitlines())


def branches(tree):
    """The parts of the tree of a `use` that its outer commas part."""
    if "{" not in tree:
        return tree.split(",")
    parts, depth = [""], 0
    for sign in SIGN.findall(tree):
        depth += (sign == "{") - (sign == "}")
        if sign == "," and not depth:
            parts.append("")
        else:
            parts[-1] += sign
    return parts


def used(tree, front=""):
    """The names that the tree of a `use` brings in: the last of each path, or what comes after `as`, with its module."""
    for part in map(str.strip, branches(tree)):
        path, brace, inner = part.partition("{")
        if brace:
            yield from used(inner.rsplit("}", 1)[0], front + path)
        elif part:
            path, _, name = part.partition(" as ")
            module, _, last = (front + path.strip()).rpartition(".")
            yield (name or last).strip(), (module, last)


def imports_of(text, use=USE):
    return {name: home for tree in use.findall(text) for name, home in used(re.sub(r"\s+", " ", tree))}


def is_proof(module):
    """Whether what ghost fields cite of a module are proofs, which the prover checks: that a type has the laws of a trait."""
    return ".specs.laws" in module


def clauses_in(text):
    return re.split(r"\b(?:ensures|requires)\b", text)[1:]


def definitions_of(path, crate, module):
    """The definitions of a file: each is what is between two blank lines, but for what begins with `use` or `mod`."""
    text, heading = re.sub(r"^(?:pub )?use .*\{\n(?: .*\n)*\}\n", "", path.read_text(), flags=re.M), ""
    for paragraph in text.split("\n\n"):
        lines = [line for line in paragraph.splitlines() if line.strip()]
        heading = ([line for line in lines if HEADING.match(line)] or [heading])[-1]
        body = [line for line in lines if not re.match(r"\s*--|(?:pub )?(?:use|mod) ", line)]
        laws = [law for line in lines for law in re.findall(r"[\w.]+", (re.match(r"\s*-- said again: (.*)", line) or ["", ""])[1])]
        if body:
            own = [line for line in body if not re.match(r"\s*(?:module|mutual)\b|    \(", line)] or body
            yield Definition(DEFINED.match(own[0])[1], crate, module, "\n".join(body), laws, lines, heading)


def public_types(folder):
    """The names that the root of a crate in this folder brings out."""
    root = folder / "src" / "lib.rt"
    brought = re.findall(r"^pub use ([^;]*);", root.read_text(), re.M) if root.exists() else []
    return set(re.findall(r"\w+", " ".join(brought)))


class Repository:
    """All definitions by module and name, the imports of each module, and the clauses of contracts and laws."""

    def __init__(self, crates=CRATES):
        self.found, self.imports = {}, {}
        for crate, folder in crates.items():
            for path in sorted((folder / "specs").rglob("*.antt")):
                parts = path.relative_to(folder / "specs").with_suffix("").parts
                module = ".".join(["Rattle", crate, "specs", *([] if parts == ("Lib",) else parts)])
                self.imports[module] = imports_of(path.read_text())
                self.found |= {(module, it.name): it for it in definitions_of(path, crate, module)}
        self.contracts, self.laws = {crate: [] for crate in crates}, {}
        for crate, folder in crates.items():
            for path in sorted((folder / "src").rglob("*.rt")):
                self.take_contracts(crate, path, public_types(folder))

    def take_contracts(self, crate, path, types):
        """The clauses of each public function and of each method of a public trait, and the ghost fields of public traits, structs
        and models: each with its name and what it cites."""
        text = path.read_text()
        names = imports_of(text, USE_IN_CODE)
        is_law = crate == "fc_laws" or path.stem == "laws"
        for _, name, clauses in PUBLIC.findall(text):
            clauses = clauses_in(clauses)
            if is_law:
                for clause in clauses:
                    cited = self.homes_in(clause, names)
                    self.laws.setdefault(name, set()).update(cited)
                    self.laws.setdefault(f"{name}.{clause.split()[0]}", set()).update(cited)
            else:
                self.contracts[crate].append((f"{crate}::{name}", self.homes_in(" ".join(clauses), names)))
        for block in [] if is_law else SEEN.finditer(text):
            if types & {*block.groups()}:
                name = f"{crate}::{block[1] or block[2] or block[3]}"
                cited = self.homes_in(" ".join(GHOST.findall(block[0])), names)
                self.contracts[crate].append((name, {home for home in cited if not is_proof(home[0])}))
                for method, said in METHOD.findall(block[0]) if block[1] else []:
                    self.contracts[crate].append((f"{name}::{method}", self.homes_in(" ".join(clauses_in(said)), names)))

    def home_of(self, name, module):
        """Where the definition is that this name means in a module, if it is one of this repository."""
        seen = set()
        while (module, name) not in self.found and name in self.imports.get(module, {}) and (module, name) not in seen:
            seen.add((module, name))
            module, name = self.imports[module][name]
        return (module, name) if (module, name) in self.found else None

    def homes_in(self, text, names):
        homes = {self.home_of(names[word][1], names[word][0]) for word in WORD.findall(text) if word in names}
        return homes - {None}

    def cited_by(self, home):
        words = set(WORD.findall(self.found[home].text)) - {home[1]}
        return {self.home_of(word, home[0]) for word in words} - {None, home}

    def reached(self, roots, without=()):
        """What these cite, and what that cites, each with what cites it first: what is to be believed, and what is said again,
        in whose place its laws are followed. Definitions and crates to do without are left out."""
        believed, again, left = {}, {}, [(home, name) for name, homes in roots for home in homes]
        while left:
            home, by = left.pop()
            it = self.found[home]
            if home in believed or home in again or {it.name, it.crate} & set(without):
                continue
            (again if it.laws else believed)[home] = by
            homes = set().union(*(self.laws.get(law, set()) for law in it.laws)) if it.laws else self.cited_by(home)
            left += [(other, it.name) for other in homes - {home}]
        return believed, again

    def cited_in_all(self, roots):
        """What these cite, and what that cites, whatever says it again."""
        seen, left = set(), [home for _, homes in roots for home in homes]
        while left:
            home = left.pop()
            if home not in seen:
                seen.add(home)
                left += self.cited_by(home)
        return seen

    def contracts_of(self, crates):
        return [it for crate in crates for it in self.contracts[crate]]

    def promised_laws(self):
        """The laws that are promises themselves."""
        return [(name, self.laws[name]) for name in sorted(name for chapter in chapters() for name in chapter.promised)]

    def lines(self, homes):
        return sum(self.found[home].lines for home in homes)
