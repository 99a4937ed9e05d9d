"""HTML: pages, lists, and texts whose words are links."""

import re
from functools import cache
from html import escape

from sources import definitions

STYLE = """:root {
  color-scheme: light dark;
  --ink: #1c1c1c; --paper: #fdfdfb; --faint: #666; --line: #d5d5cf; --box: #f3f3ee; --link: #0b4f9e
}
@media (prefers-color-scheme: dark) {
  :root { --ink: #e4e4e0; --paper: #17181a; --faint: #a0a0a0; --line: #3a3c40; --box: #202225; --link: #8ab8f0 }
}
body { margin: 0; background: var(--paper); color: var(--ink); font: 16px/1.5 system-ui, sans-serif }
nav, main { max-width: 62rem; margin: 0 auto; padding: .5rem 1rem }
p, li, blockquote, input { max-width: 38em }
svg { max-width: 100%; height: auto }
input { width: 100%; font: inherit; box-sizing: border-box }
nav { border-bottom: 1px solid var(--line); display: flex; flex-wrap: wrap }
nav a { margin-right: 1rem; white-space: nowrap }
a { color: var(--link); text-decoration: none }
a, code { overflow-wrap: anywhere }
a:hover { text-decoration: underline }
h1, h2, h3, h4 { line-height: 1.25; overflow-wrap: anywhere }
pre, code { font-family: ui-monospace, monospace; font-size: .88em }
pre { background: var(--box); padding: .6rem; overflow-x: auto; white-space: pre-wrap; overflow-wrap: anywhere; margin: .4rem 0 }
table { border-collapse: collapse; display: block; overflow-x: auto }
th, td { min-width: 4em; border: 1px solid var(--line); padding: .3rem .5rem; text-align: left; vertical-align: top; overflow-wrap: anywhere }
blockquote { border-left: 4px solid var(--line); margin: 1rem 0; padding: .2rem 1rem; font-size: 1.1em }
section { border-top: 1px solid var(--line); margin-top: 1rem }
:target { outline: 2px solid var(--link) }
.faint { color: var(--faint); font-size: .92em }
@media print {
  nav { display: none }
  body { font-size: 10pt }
  a { color: inherit }
  section { break-inside: avoid-page }
}
"""

WORDS = [("index.html", "Start"), ("index.html#crates", "Crates"), ("index.html#promises", "Promises"), ("crate-fc_laws.html", "Laws"),
         ("wrong.html", "Mutants"), ("names.html", "Names"), ("trusted.html", "Trusted and tested"),
         ("doc-ARCHITECTURE.html#the-way-of-a-record", "The way of a record")]


# What the page of names does as one types: it needs no server, and without it all names are there.
SEARCH = """const field = document.querySelector('input'), names = [...document.querySelectorAll('li')];
field.hidden = false;
field.oninput = () => {
    const words = field.value.toLowerCase().split(/\\s+/);
    for (const name of names) name.hidden = !words.every((word) => name.textContent.toLowerCase().includes(word));
};
"""


# A call: the last name before its own, as of a type or a module, and its name.
CALL = re.compile(r"(?<![\w.])(?:(self(?=\.)|\w+(?=::))(?:::<[\w, ]*>)?(?:::|\.))?([a-z_]\w*)(?=\(|::<)")


@cache
def link(target, words):
    return f'<a href="{escape(target)}">{escape(words)}</a>'


def paragraph(html):
    return f"<p>{html}</p>\n" if html else ""


def faint(html):
    return f'<p class="faint">{html}</p>\n' if html else ""


def code_block(html):
    return f"<pre>{html}</pre>\n"


def items(html):
    """A list of these items."""
    return "<ul>\n" + "".join(f"<li>{it}</li>\n" for it in html) + "</ul>\n"


def section(anchor, html):
    return f'<section id="{escape(anchor)}">\n{html}</section>\n'


def page(title, body):
    """A whole page of the book."""
    return ('<!DOCTYPE html>\n<html lang="en">\n<head>\n<meta charset="utf-8"/>\n'
            '<meta name="viewport" content="width=device-width, initial-scale=1"/>\n'
            f'<title>{escape(title)}</title>\n<link rel="stylesheet" href="book.css"/>\n</head>\n<body>\n<nav>'
            + "".join(link(*it) for it in WORDS)
            + f"</nav>\n<main>\n<h1>{escape(title)}</h1>\n{body}</main>\n</body>\n</html>\n")


def linked(text, target_of, words=definitions.WORD):
    """The text with a link for each of these words that has a target, but for fields, which follow a dot."""
    done, parts = 0, []
    for word in words.finditer(text):
        target = None if text[word.start() - 1:word.start()] == "." else target_of(word[0])
        if target:
            parts += [escape(text[done:word.start()], False), link(target, word[0])]
            done = word.end()
    return "".join([*parts, escape(text[done:], False)])


def linked_calls(text, target_of):
    """The text of a body with a link for each function that it calls, by its owner, as in `Board::step(`, and its name."""
    done, parts = 0, []
    for call in CALL.finditer(text):
        target = target_of(call[1] or "", call[2])
        if target:
            parts += [escape(text[done:call.start(2)], False), link(target, call[2])]
            done = call.end(2)
    return "".join([*parts, escape(text[done:], False)])


def from_page(target, file):
    """A target as a page names it: on the page itself the anchor alone."""
    return target.removeprefix(file) if target.startswith(f"{file}#") else target


def inline(text, code):
    """A line of a document or a comment in HTML; `code` makes what is between backticks."""
    parts = []
    for place, part in enumerate(re.split(r"`([^`]+)`", text)):
        parts.append(code(part) if place % 2 else escape(part, False))
    return "".join(parts)


def folded(title, items):
    """Links in one line, or folded where they are many."""
    if not items:
        return ""
    words = ", ".join(items)
    if len(items) <= 12:
        return faint(f"{title}: {words}")
    return f'<details class="faint"><summary>{title}: {len(items)}</summary>{words}</details>\n'
