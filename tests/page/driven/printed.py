"""The page on paper: what a PDF shows is counted, and again after something was taken from the page."""

import re
import zlib
from urllib.parse import quote

from lib.report import same

STREAM = re.compile(rb"stream\r?\n(.*?)\r?\nendstream", re.S)
SHEET = re.compile(rb"/Type\s*/Page\b")
TEXT = re.compile(rb"\bT[jJ]\b")  # texts that are shown
LINES = re.compile(rb"\b(?:l|c|re|h)\n")  # parts of what is drawn
CARDS, PILES = 52, 16
EMPTY = "#text=" + quote("@ freecell empty\nFound: H-K C-K D-K S-Q\nKS\n")
HIDE = "((style) => {{ style.replaceSync({rule!r}); document.adoptedStyleSheets = [style]; return 1; }})(new CSSStyleSheet())"


def streams(paper):
    """What is packed in a PDF."""
    for part in STREAM.findall(paper):
        try:
            yield zlib.decompress(part)
        except zlib.error:
            pass  # it is packed in another way, as pictures are


def counted(paper, what):
    """How often something is shown on the paper."""
    return sum(len(what.findall(part)) for part in streams(paper) if b"BT" in part or b" re" in part)


def without(browser, rule):
    """The paper of the page with one more rule of style."""
    browser.value(HIDE.format(rule=rule))
    paper = browser.paper()
    browser.value("document.adoptedStyleSheets = []")
    return paper


def boards(browser):
    """Both boards are whole on one sheet, each with its cards and the names of its piles."""
    browser.open(1440, 900)
    paper = browser.paper()
    faults = same("sheets", 1, len(SHEET.findall(b"".join([paper, *streams(paper)]))))
    texts = counted(paper, TEXT)
    for side in ("left", "right"):
        shown = texts - counted(without(browser, f"#{side} .table {{ visibility: hidden; }}"), TEXT)
        if shown < CARDS:
            faults.append(f"of the {side} board {shown} texts are on the paper")
    return faults


def empty_piles(browser):
    """Piles without a card are seen, on the ground of their board."""
    browser.open(1440, 900, EMPTY)
    drawn = counted(browser.paper(), LINES)
    piles = drawn - counted(without(browser, ".pile::after { visibility: hidden; }"), LINES)
    faults = [] if piles >= PILES else [f"{piles} lines are drawn for empty piles"]
    bare = counted(without(browser, ".board { print-color-adjust: economy !important; }"), LINES)
    return faults if bare != drawn else [*faults, "the boards have no ground"]


def controls(browser):
    """Nothing that is worked is on the paper, but for the boards that were seen."""
    browser.open(1440, 900)
    browser.value("at('shuffle').click()")
    texts = counted(browser.paper(), TEXT)
    rule = "button:not(.seen), input, select, textarea, summary, label, progress { visibility: hidden; }"
    return same("texts without controls", texts, counted(without(browser, rule), TEXT))


PARTS = {"boards on paper": boards, "empty piles on paper": empty_piles, "controls on paper": controls}
