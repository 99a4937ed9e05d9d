"""The documents of the repository, as they are, in HTML."""

import re
from html import escape

from markup import link
from sources import ROOT

PATHS = sorted([*ROOT.glob("*.md"), *(ROOT / "docs").glob("*.md")])
PAGES = {path.name: "index.html" if path.stem == "TRUST" else f"doc-{path.stem}.html" for path in PATHS}
# They name what a user types and reads, and nothing of the code.
OF_USERS = {"FORMATS.md", "KEEPERS.md", "PAGE.md", "SCALE.md"}
SPAN = re.compile(r"`([^`]+)`|!\[([^\]]*)\]\(([^)]*)\)|\[((?:[^\]`]|`[^`]*`)*)\]\(([^)]*)\)"
                  r"|\*\*((?:[^*]|\*(?!\*))+)\*\*|\*([^*\s][^*]*)\*|<(https?:[^>]*)>")

# A paragraph that names a statement, which the book puts in its place.
STATEMENT = re.compile(r"\*(Definition|Law|Lemma):\* `([^`]+)`")


def anchor_of(heading):
    return re.sub(r"[^\w\- ]", "", heading.lower()).replace(" ", "-")


class Document:
    """A document that is made HTML: its name, what makes what is between backticks, by the heading and the title of the column,
    and what puts a statement in its place, by its kind and its name."""

    def __init__(self, name, code, statement):
        self.name, self.code, self.statement = name, code, statement
        self.anchors, self.heading, self.column = set(), "", None

    def target(self, path):
        """The page of what a link names, or nothing where the book has none."""
        file, _, anchor = path.partition("#")
        page = PAGES.get((file or self.name).rpartition("/")[2])
        return None if not page or ":" in path else page + (f"#{anchor}" if anchor else "")

    def span(self, found):
        code, picture, place, words, path, strong, weak, address = found.groups()
        if code:
            return self.code(code, self.heading, self.column)
        if words is not None:
            target = self.target(path)
            if target and "`" not in words:
                return link(target, words)
            return self.inline(words)
        if strong or weak:
            tag = "b" if strong else "i"
            return f"<{tag}>{self.inline(strong or weak)}</{tag}>"
        return escape(address) if picture is None else self.picture(picture, place)

    def picture(self, words, place):
        """A drawn picture itself, or what a photograph of the page shows in words."""
        near = [folder / place for folder in (ROOT, ROOT / "docs") if place.endswith(".svg") and (folder / place).exists()]
        return near[0].read_text() if near else escape(words)

    def inline(self, text):
        parts, done = [], 0
        for found in SPAN.finditer(text):
            parts += [escape(text[done:found.start()], False), self.span(found)]
            done = found.end()
        return "".join([*parts, escape(text[done:], False)])

    def table(self, lines):
        rows = [re.split(r"(?<!\\)\|", line.strip().strip("|")) for line in lines]
        titles = [title.strip() for title in rows[0]]
        made = ["<tr>" + "".join(f"<th>{self.inline(title)}</th>" for title in titles) + "</tr>"]
        for cells in rows[2:]:
            made.append("<tr>")
            for self.column, cell in zip(titles, cells):
                made.append(f"<td>{self.inline(cell.strip())}</td>")
            made.append("</tr>\n")
        self.column = None
        return f"<table>\n{''.join(made)}</table>\n"

    def items(self, lines, tag):
        joined = re.sub(r"\n\s+", " ", "\n".join(lines))
        items = [re.sub(r"^(?:[-*]|\d+\w?\.) ", "", line) for line in joined.split("\n")]
        return f"<{tag}>" + "".join(f"<li>{self.inline(item)}</li>\n" for item in items) + f"</{tag}>\n"

    def heading_of(self, line):
        marks, _, words = line.partition(" ")
        self.heading, anchor = words if marks == "##" else self.heading, anchor_of(words)
        level, is_new = min(len(marks) + 1, 6), anchor not in self.anchors
        self.anchors.add(anchor)
        return f"<h{level}" + (f' id="{escape(anchor)}"' if is_new else "") + f">{self.inline(words)}</h{level}>\n"

    def block(self, lines):
        """A paragraph, a table, a list, a quote or a heading."""
        if lines[0].startswith("#"):
            return self.heading_of(lines[0]) + (self.block(lines[1:]) if lines[1:] else "")
        if lines[0].startswith("|"):
            return self.table(lines)
        if lines[0].startswith(">"):
            return "<blockquote>" + self.inline(" ".join(line.lstrip("> ") for line in lines)) + "</blockquote>\n"
        if re.match(r"[-*] ", lines[0]):
            return self.items(lines, "ul")
        if re.match(r"\d+\w?\. ", lines[0]):
            return self.items(lines, "ol")
        if named := STATEMENT.fullmatch(" ".join(lines)):
            return self.statement(*named.groups())
        return f"<p>{self.inline(' '.join(lines))}</p>\n"

    def html(self, text):
        """All of a text, without its title."""
        made = []
        for block in blocks_of(text):
            if block[0].startswith(("    ", "```")):
                lines = [line.removeprefix("    ") for line in block] if block[0].startswith("    ") else block[1:-1]
                made.append("<pre>" + escape("\n".join(lines), False) + "</pre>\n")
            elif not block[0].startswith("# ") or block[1:]:
                made.append(self.block(block[1:] if block[0].startswith("# ") else block))
        return "".join(made)


def blocks_of(text):
    """The blocks of a text, which are lists of lines: what is between blank lines, and fenced code whole."""
    block, is_fenced = [], False
    for line in [*text.splitlines(), ""]:
        if line.startswith("```"):
            if block and not is_fenced:
                yield block
            block, is_fenced = [*block, line] if is_fenced else [line], not is_fenced
            if not is_fenced:
                yield block
                block = []
        elif is_fenced or line.strip():
            block.append(line)
        elif block:
            yield block
            block = []


def explained():
    """The headings below which a document explains a law, a definition or a lemma, by its name: its page and its words."""
    found = {}
    for path in PATHS:
        heading = ""
        for line in path.read_text().splitlines():
            heading = line.lstrip("# ") if line.startswith("## ") else heading
            if named := STATEMENT.fullmatch(line):
                found.setdefault(named[2].rpartition("::")[2], (f"{PAGES[path.name]}#{anchor_of(heading)}", f"{title_of(path)}: {heading}"))
    return found


def section(path, title):
    """The section of a document under this heading."""
    found = re.search(rf"^(#+) {re.escape(title)}\n(.*?)(?=^#{{1,2}} |\Z)", path.read_text(), re.M | re.S)
    return found[2]


def title_of(path):
    return re.search(r"^# (.*)", path.read_text(), re.M)[1]
