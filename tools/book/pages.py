"""The pages of the book, each a file of HTML by its name."""

import re
from collections import Counter
from html import escape

import documents
from chapters import Chapters, file_of
from links import as_it_is, edit_link, gathered, lemma_target, module_path, page_of_code, part_of, proof_link, types_of
from markup import SEARCH, code_block, faint, folded, from_page, items, link, linked, linked_calls, page, paragraph, section
from sources import CRATES, LAW_MODULES, LEMMA, ROOT, comment_of, definitions, is_law, trust

HEADLINE_LAW = ("fc_laws", "canonical_boards_represent_their_classes")

# Where a reader begins: a question, and the definition or the law that answers it.
QUESTIONS = [
    ("What does equivalent mean?", ("fc_canon", "Equivalent")),
    ("Which mutants does the least text refuse?", ("fc_canon", "canon_text")),
    ("Why are moves of several cards bounded so?", ("fc_laws", "capacity_is_exact")),
    ("What proves that groups are exact?", ("fc_laws", "together_exactly_where_equivalent")),
    ("Where is the first fault of a text promised?", ("fc_text", "read_board")),
]


def drawn(name):
    """A picture of the documents."""
    return (ROOT / "docs" / "pictures" / f"{name}.svg").read_text()


SINGULAR = {"Function": "function", "Laws": "law", "Type": "type", "Definitions": "definition", "Crate": "crate"}


class Book(Chapters):
    """What each page says."""

    def __init__(self, sources):
        super().__init__(sources)
        self.explained = documents.explained()

    # ---- definitions

    def definition(self, home, file):
        it = self.definitions.found[home]
        words, code = comment_of(it)
        return section(self.targets[home].partition("#")[2], (
            f"<h3>{escape(it.name)}</h3>\n" + paragraph(self.comment(words, it.crate))
            + code_block(linked(code, self.of_definition(home, file))) + self.around(home, it, file)))

    def around(self, home, it, file):
        """What is to be said of a definition: where its rule is from, which laws say it again, and what cites it."""
        source, citing = re.search(r"From: (.*)", it.heading), self.citing.get(home, [])
        laws = [piece for piece in citing if is_law(piece)]
        functions = [piece for piece in citing if not is_law(piece)]
        others = [(self.targets[other], other[1]) for other in self.cited.get(home, [])]
        return (faint(f"From: {self.comment(source[1], it.crate)}" if source else "") + self.why(it.name)
                + folded("Said again by", [link(self.law_target(law), law) for law in it.laws])
                + folded("Cited by definitions", [link(from_page(target, file), name) for target, name in others])
                + folded("Cited by contracts of", [link(piece.target, f"{piece.crate}::{piece.name}") for piece in functions])
                + folded("Laws that cite it", [link(piece.target, piece.name) for piece in laws]))

    def law_target(self, law):
        name = law.partition(".")[0]
        return next(piece.target for piece in self.functions if is_law(piece) and piece.name == name)

    def definitions_page(self, crate):
        file, heading, module = f"def-{crate}.html", "", None
        parts = [faint(f"{link(f'crate-{crate}.html', crate)}: what its contracts and laws cite.")]
        for home, it in self.definitions.found.items():
            if it.crate != crate:
                continue
            if home[0] != module:
                module = home[0]
                parts.append(f"<h2>specs/{escape(module_path(module).replace('.', '/') or 'Lib')}.antt</h2>\n")
            if it.heading and it.heading != heading:
                parts.append(f"<h4>{self.comment(re.sub(r'^-- [-=]+ ', '', it.heading), crate)}</h4>\n")
            heading = it.heading
            parts.append(self.definition(home, file))
        return file, page(f"Definitions of {crate}", "".join(parts))

    # ---- functions and laws

    def function(self, piece):
        """A function with its comment, its contract and its code; a law has none."""
        file, (head, clauses) = piece.page, piece.signature
        owner = f'<span class="faint">{escape(piece.owner)}: </span>' if piece.owner else ""
        private = "" if piece.is_public else ' <span class="faint">(private)</span>'
        doc = [self.comment(" ".join(block), piece.crate) for block in documents.blocks_of("\n".join(piece.doc))]
        parts = [linked("\n".join(head), self.of_types(piece, file)), linked("\n".join(clauses), self.of_clauses(piece, file)),
                 "" if is_law(piece) else linked_calls("\n".join(piece.body), self.of_calls(piece, file))]
        return section(piece.anchor, (
            f"<h3>{owner}{escape(piece.name)}{private}</h3>\n" + "".join(paragraph(words) for words in doc)
            + code_block("\n".join(part for part in parts if part)) + self.against(piece)))

    def against(self, piece):
        """The mutants of a function and of what it calls, and its written proof."""
        called = self.called_from(piece)[1:] if piece.is_public else []
        return (self.why(piece.name)
                + folded("Tied to code by the contracts of", [link(it.target, f"{it.crate}::{it.name}") for it in self.carried_by(piece)])
                + folded("Mutants", [edit_link(edit) for edit in piece.edits])
                + folded("Mutants of what it calls", [edit_link(edit) for other in called for edit in other.edits])
                + folded("Written proof", [proof_link(proof, proof.parts[-1]) for proof in piece.proofs]))

    def other_code(self, piece, file):
        """What is between functions: types, constants, and what they are to contracts."""
        lines = [line for line in piece.lines if not line.startswith("//!")]
        text = re.sub(r"^(?:ghost |pub )?use [^;]*;\n?", "", "\n".join(lines), flags=re.M).strip("\n")
        anchors = "".join(f'<a id="type.{name}"></a>' for name, _ in types_of([piece]))
        return anchors + code_block(linked(text, self.of_clauses(piece, file))) if text.strip(" }\n") else ""

    def code_page(self, file, crate, title, pieces):
        public = [link(f"#{piece.anchor}", piece.name) for piece in pieces if piece.name and piece.is_public]
        parts, shown = [self.ways_from(crate), folded("Public", public)], None
        for piece in pieces:
            if piece.file != shown:
                shown = piece.file
                intro = " ".join(line[3:].strip() for line in piece.lines if line.startswith("//!"))
                parts.append(f'<h2 id="{part_of(shown)}">src/{escape(shown)}</h2>\n' + paragraph(self.comment(intro, crate)))
            parts.append(self.function(piece) if piece.name else self.other_code(piece, file))
        return file, page(title, "".join(parts))

    def carried_by(self, piece):
        """The public functions whose contracts share most with a law: definitions that few others cite count more."""
        shared = Counter()
        for home in sorted(piece.cites) if is_law(piece) else ():
            for other in self.citing[home]:
                if other.is_public and not is_law(other):
                    shared[other] += len(self.citing[home]) ** -0.5
        most = max(shared.values(), default=0)
        return [other for other, weight in shared.most_common(5) if weight > most / 2]

    def why(self, name):
        """The document that explains a law or a definition, if one does."""
        return folded("Explained in", [link(*self.explained[name])] if name in self.explained else [])

    def ways_from(self, crate):
        return faint(" · ".join(link(*it) for it in self.pages_of(crate)))

    def pages_of(self, crate):
        """The pages on a crate, each with its words."""
        yield from ((file_of(it), "promises") for it in trust.chapters() if crate in it.crates)
        yield f"crate-{crate}.html", "laws" if crate == "fc_laws" else "code and contracts"
        if any(it.crate == crate for it in self.definitions.found.values()):
            yield f"def-{crate}.html", "definitions"
        if self.sources.edits[crate]:
            yield f"wrong-{crate}.html", "mutants"
        if self.sources.proofs[crate]:
            yield f"proof-{crate}.html", "proofs"

    def code_pages(self):
        for crate, pieces in self.sources.pieces.items():
            if crate != "fc_laws":
                yield self.code_page(f"crate-{crate}.html", crate, crate, pieces)
        for module in LAW_MODULES:
            file = f"law-{module}.html"
            pieces = [it for it in self.sources.pieces["fc_laws"] if page_of_code("fc_laws", it.file) == file]
            yield self.code_page(file, "fc_laws", f"Laws of {module}", pieces)
        modules = items(link(f"law-{module}.html", module) for module in LAW_MODULES)
        yield "crate-fc_laws.html", page("fc_laws", self.ways_from("fc_laws") + modules)

    # ---- mutants

    def edit(self, edit):
        tried = "; tried by make test" if edit.is_must_fail else ""
        place = link(edit.piece.target, edit.piece.name) if edit.piece else escape(edit.said["file"])
        changes = "\n".join(f"{key}: {words}" for key, words in edit.changes)
        return section(edit.name, (
            paragraph(f"<b>{escape(edit.name)}</b>: {self.comment(edit.said['why'], edit.crate)}.")
            + faint(f"In {place}; refused by {escape(edit.said.get('refused by', 'a goal'))}{tried}.")
            + code_block(escape(changes, False))))

    def edits_in(self, piece, edits, file):
        """The mutants of a function, below the contract that refuses them."""
        clauses = "\n".join(piece.signature[1]) if piece else ""
        contract = code_block(linked(clauses, self.of_clauses(piece, file))) if clauses else ""
        folded_up = f"<details><summary>The contract of {escape(piece.name)}</summary>{contract}</details>\n" if contract else ""
        return folded_up + "".join(self.edit(it) for it in edits)

    def wrong_pages(self):
        counts = []
        for crate, edits in self.sources.edits.items():
            if edits:
                file, tried = f"wrong-{crate}.html", sum(it.is_must_fail for it in edits)
                counts.append(f"{link(file, crate)}: {len(edits)}, of which {tried} are tried by make test")
                by_piece = gathered((it.piece, None, it) for it in edits)
                parts = [self.edits_in(piece, found, file) for (piece, _), found in by_piece.items()]
                yield file, page(f"Mutants of {crate}", self.ways_from(crate) + "".join(parts))
        intro = paragraph("Each is a function with a mistake in it, which its contract does not allow: the prover refuses it. A line "
                          "<code>right:</code> is its control, the same change without the mistake: it must be proved. "
                          "<code>make edits</code> tries them all, <code>make test</code> few.")
        yield "wrong.html", page("Mutants", intro + items(counts))

    # ---- proofs

    def lemmas_of(self, proof, file):
        """The lemmas that a written proof imports or has, by their names, each where it is proved."""
        found = {name: from_page(lemma_target(proof, name), file) for name in proof.lemmas}
        for word, (module, name) in definitions.imports_of(proof.text).items():
            other = self.lemmas.get(module)
            if other and name in other.lemmas:
                found[word] = from_page(lemma_target(other, name), file)
        return found

    def text_of_proof(self, proof, file):
        """A written proof without its imports: an anchor where each lemma begins, and in each part of it a link where one is cited first."""
        text = re.sub(r"^(?:pub )?use .*\{\n(?: .*\n)*\}\n", "", proof.text, flags=re.M)
        text = re.sub(r"^(?:pub )?use .*\n", "", text, flags=re.M).strip("\n")
        lemmas, placed = self.lemmas_of(proof, file), set()
        return "\n\n".join(self.part_of_proof(part, proof, lemmas, placed) for part in text.split("\n\n"))

    def part_of_proof(self, part, proof, lemmas, placed):
        heads = {found.start(1): found[1] for found in LEMMA.finditer(part)}
        new = {at for at, name in heads.items() if name in proof.lemmas and name not in placed}
        done, parts, cited = 0, [], set(heads.values())
        for word in definitions.WORD.finditer(part):
            name = word[0]
            if name not in lemmas:
                continue
            if word.start() in new and name not in placed:
                placed.add(name)
                made = f'<b id="{escape(lemma_target(proof, name).partition("#")[2])}">{escape(name, False)}</b>'
            elif name not in cited and part[word.start() - 1:word.start()] != ".":
                cited.add(name)
                made = link(lemmas[name], name)
            else:
                continue
            parts += [escape(part[done:word.start()], False), made]
            done = word.end()
        return "".join([*parts, escape(part[done:], False)])

    def proof(self, proof, file):
        return section(proof.anchor, (
            f"<h3>{escape(proof.anchor)}</h3>\n" + paragraph(f"For {link(proof.piece.target, proof.piece.name)}." if proof.piece else "")
            + code_block(self.text_of_proof(proof, file))))

    def proof_pages(self):
        for crate, proofs in self.sources.proofs.items():
            if proofs:
                file, ordered = f"proof-{crate}.html", sorted(proofs, key=lambda it: it.is_of_function)
                ways = folded("Here", [link(f"#{it.anchor}", it.anchor) for it in ordered])
                parts = [self.ways_from(crate), ways, *(self.proof(it, file) for it in ordered)]
                yield file, page(f"Proofs of {crate}", "".join(parts))

    # ---- documents, and the start

    def document(self, path, text=None):
        named = as_it_is if path.name in documents.OF_USERS else self.named
        return documents.Document(path.name, named, self.statement).html(path.read_text() if text is None else text)

    def statement(self, kind, name):
        """A definition, a law or a lemma as it stands, linked to where it is."""
        if kind == "Lemma":
            return self.lemma(*name.split("::"))
        target = self.name(name, (), f"{kind}s")
        if kind == "Law":
            law = next(piece for piece in self.functions if piece.target == target)
            return faint(f"Law: {link(target, name)}") + code_block(linked("\n".join(law.signature[1]), self.of_clauses(law, "")))
        home = next(home for home, it in self.targets.items() if it == target)
        code = comment_of(self.definitions.found[home])[1]
        return faint(f"Definition: {link(target, name)}") + code_block(linked(code, self.of_definition(home, "")))

    def lemma(self, file, name):
        """What a lemma says, without its proof: up to the line that begins with its name again."""
        proof = next(it for module, it in self.lemmas.items() if module.endswith(f".{file}") and name in it.lemmas)
        lines = proof.text.splitlines()
        begins = re.compile(rf" *(?:(?:pub|abbrev|record|data) )*{re.escape(name)} [:({{]")
        first = next(at for at, line in enumerate(lines) if begins.match(line))
        indent = re.match(" *", lines[first])[0]
        ends = (at for at in range(first + 1, len(lines)) if not lines[at].strip() or lines[at].startswith(f"{indent}{name} "))
        last = next(ends, len(lines))
        return faint(f"Lemma: {link(lemma_target(proof, name), name)}") + code_block(escape("\n".join(lines[first:last]), False))

    def document_pages(self):
        for path in documents.PATHS:
            if documents.PAGES[path.name] != "index.html":
                yield documents.PAGES[path.name], page(documents.title_of(path), self.document(path))

    def trusted_page(self):
        """What TRUST and PROOFS say of what is trusted, and of what is not proved."""
        trust, proofs, tests = (ROOT / "docs" / f"{name}.md" for name in ("TRUST", "PROOFS", "TESTS"))
        parts = []
        for path, title in ((trust, "What must I trust?"), (trust, "Not promised"), (trust, "Only tested"), (proofs, "Definitions that no law reaches"),
                            (proofs, "Machine-made mutants that are accepted"), (tests, "Mutation testing")):
            parts.append(f"<h2>{escape(title)}</h2>\n" + self.document(path, documents.section(path, title)))
        return "trusted.html", page("What is trusted, tested, neither", "".join(parts))

    def crates_table(self):
        """The table of layers of docs/ARCHITECTURE.md, each crate with its pages."""
        path = ROOT / "docs" / "ARCHITECTURE.md"
        rows = ["| Crate | What it does |", "|---|---|"]
        rows += [f"| `{crate}` | {words} |" for crate, words in
                 re.findall(r"^\| `(\w+)` \| ([^|]*) \|", documents.section(path, "Layers"), re.M)]
        table = self.document(path, "\n".join(rows))
        for crate in CRATES:
            ways = " · ".join(link(*it) for it in self.pages_of(crate))
            table = table.replace(f"<td><code>{link(f'crate-{crate}.html', crate)}</code></td>", f"<td>{crate}<br/>{ways}</td>")
        return table

    def headline(self):
        """The words of the headline, which begin the comment of its law."""
        crate, name = HEADLINE_LAW
        law = self.of_name[crate, name][0]
        words = " ".join(law.doc[:law.doc.index("")])
        return f"<blockquote>{escape(words)}</blockquote>\n" + paragraph(f"That is a theorem: {link(law.target, name)}.")

    def start_page(self):
        questions = items(link(self.name(name, [crate]), words) for words, (crate, name) in QUESTIONS)
        texts = [link(documents.PAGES[path.name], documents.title_of(path)) for path in documents.PATHS
                 if documents.PAGES[path.name] != "index.html"]
        return "index.html", page("fcanon: the book of the proof", (
            f'{self.headline()}{drawn("boards")}<h2>Questions</h2>\n{questions}<h2 id="crates">Crates</h2>\n{drawn("layers")}{self.crates_table()}'
            f'<h2>Documents</h2>\n{paragraph(" · ".join(texts))}<h2 id="promises">Promises</h2>\n{self.chapters()}'
            f'{self.document(ROOT / "docs" / "TRUST.md")}'))

    def names_page(self):
        """All names, each with what it is: as one types those that have the words are left."""
        named = [(name, f"{crate} {SINGULAR[kind]}", target) for name, found in self.by_name.items() for kind, crate, target in found]
        named += [(name, f"{proof.crate} lemma", lemma_target(proof, name)) for proof in self.lemmas.values() for name in proof.lemmas]
        named += [(edit.name, f"{edit.crate} mutant", f"wrong-{edit.crate}.html#{edit.name}") for edits in self.sources.edits.values() for edit in edits]
        owners = {piece.target: f" of {escape(re.sub('(?<!:): .*', '', piece.owner))}" for piece in self.functions if piece.owner}
        ordered = sorted(named, key=lambda it: (it[0].lower(), it))
        listed = items(f"{link(target, name)} {words}{owners.get(target, '')}" for name, words, target in ordered)
        field = '<input type="search" placeholder="a name, a crate, or what it is" aria-label="Search" autofocus="" hidden=""/>\n'
        return "names.html", page("Names", f"{field}{listed}<script>\n//<![CDATA[\n{SEARCH}//]]>\n</script>\n")

    def pages(self):
        """Each page of the book, with its name."""
        yield self.start_page()
        yield self.names_page()
        yield from self.code_pages()
        yield from self.chapter_pages()
        for crate in CRATES:
            if any(it.crate == crate for it in self.definitions.found.values()):
                yield self.definitions_page(crate)
        yield from self.wrong_pages()
        yield from self.proof_pages()
        yield from self.document_pages()
        yield self.trusted_page()
