"""The chapters of the book: what fcanon promises in words, each function and law under the heading of the definitions that it
cites."""

import re
from html import escape

import documents
from links import Links, module_path
from markup import faint, folded, items, link, page
from sources import comment_of, is_law, trust

REST = "What rests on definitions of other chapters, or on those of std alone"


def file_of(chapter):
    return f"chapter-{chapter.crates[0]}.html"


def title_of(piece):
    """The name of a function as Rust writes it, with its type."""
    trait, of_type, owner = re.sub(r"(?<!:): .*", "", piece.owner).rpartition(" for ")
    return f"<{owner} as {trait}>::{piece.name}" if of_type else f"{owner}::{piece.name}" if owner else piece.name


class Chapters(Links):
    """What the chapters say."""

    def topics(self, chapter):
        """The definitions of a chapter's crates, by their headings or, where a file has none, by its module."""
        found = {}
        for home, it in self.definitions.found.items():
            if it.crate in chapter.crates:
                heading = re.sub(r"^-- [-=]+ ", "", it.heading) or f"`{module_path(home[0]) or it.crate}`"
                found.setdefault((home[0], heading), set()).add(home)
        return found

    def promises(self, chapter):
        """The public functions and the laws of a chapter."""
        own = [piece for crate in chapter.crates for piece in self.sources.functions[crate]]
        laws = [piece for piece in self.sources.functions["fc_laws"] if re.split(r"[/.]", piece.file)[0] in chapter.modules]
        return [piece for piece in own + laws if piece.is_public]

    def told(self, chapter):
        """For each heading what is told under it: a promise is where it cites most, of which few others cite as much."""
        topics = self.topics(chapter)
        found = {topic: [] for topic in [*topics, None]}
        for piece in self.promises(chapter):
            weights = {topic: sum(1 / len(self.citing[home]) for home in homes & piece.cites) for topic, homes in topics.items()}
            best = max(weights, key=weights.get, default=None)
            found[best if weights.get(best) else None].append(piece)
        return {topic: pieces for topic, pieces in found.items() if pieces or topic and not self.is_aside(topics[topic])}

    def is_aside(self, homes):
        return all(self.definitions.found[home].aside for home in homes)

    def doc_of(self, piece):
        """The comment of a function, or that of the function of a trait that it implements."""
        trait = re.match(r"\w+", piece.owner.rpartition("::")[2])
        if piece.doc or " for " not in piece.owner:
            return piece.doc
        named = (it for it in self.functions if it.name == piece.name and it.doc and " for " not in it.owner)
        return next((it.doc for it in named if trait and re.match(rf"{trait[0]}\b", it.owner)), [])

    def promise(self, piece):
        """A function or a law in words."""
        words = " ".join(next(documents.blocks_of("\n".join(self.doc_of(piece))), []))
        return self.told_as(piece.target, title_of(piece), words, piece.crate)

    def definition_told(self, home):
        it = self.definitions.found[home]
        return self.told_as(self.targets[home], it.name, comment_of(it)[0], it.crate)

    def told_as(self, target, name, words, crate):
        return link(target, name) + (f": {self.comment(words, crate)}" if words else "")

    def topic(self, homes, pieces):
        parts = {"Definitions": [self.definition_told(home) for home in self.targets if home in homes],
                 "Functions": [self.promise(piece) for piece in pieces if not is_law(piece)],
                 "Laws": [self.promise(piece) for piece in pieces if is_law(piece)]}
        return "".join(faint(title) + items(found) for title, found in parts.items() if found)

    def chapter_page(self, chapter):
        topics, ways, parts = self.topics(chapter), [], []
        for number, (topic, pieces) in enumerate(self.told(chapter).items(), 1):
            heading = topic[1] if topic else REST
            ways.append(link(f"#{number}", re.split(r"[:,.]", heading)[0].strip("`")))
            parts.append(f'<h3 id="{number}">{self.comment(heading, chapter.crates[0])}</h3>\n')
            parts.append(self.topic(topics.get(topic, ()), pieces))
        return file_of(chapter), page(f"Promises on {chapter.title}", "".join([folded("Here", ways), *parts]))

    def chapters(self):
        """The map of the chapters, each with its page."""
        return items(f"{link(file_of(it), it.title)}: {escape(', '.join(it.crates))}" for it in trust.chapters())

    def chapter_pages(self):
        return map(self.chapter_page, trust.chapters())
