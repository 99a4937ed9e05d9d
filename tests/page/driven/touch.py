"""The page under a finger, on a telephone: what is tapped, what is dragged, and what the page scrolls by."""

from urllib.parse import quote

from lib.report import same

WIDE, HIGH = 390, 664
STEPS = 8  # of a finger's way
RUN = "#text=" + quote("@ freecell run\nFound: H-K C-T D-T S-K\nKC QD JC\nKD QC JD\n")  # the board of README.md
HOME = "#text=" + quote("@ freecell last\nFound: H-K C-K D-K S-Q\nKS\n")
# Where a finger takes a card, of which others cover all but the head, and where it sets cards down.
CARD = "(([it]) => [it.x + it.width / 2, it.y + 8])([box(cards('left', {key!r}).at({place}))])"
PILE = "(([it]) => [it.x + it.width / 2, it.y + it.height / 2])([box(pile('left', {key!r}))])"
FINGER = 44  # pixels
LARGE = """all('button:not(figcaption button), input:not([type=file]), select, label.choice, summary, .proved li a')
  .filter((it) => it.offsetParent && it.type !== 'checkbox' && !it.closest('.hidden'))
  .map((it) => [it.id || it.textContent.trim(), box(it).height, it.tagName === 'A' ? Infinity : box(it).width])"""
# The buttons beside titles are lower, and feel a finger above and below them: how high that is.
FELT = """all('figcaption button').filter((it) => it.offsetParent).map((it) => {
  const { x, y, width, height } = box(it);
  const isFelt = (place) => document.elementFromPoint(x + width / 2, place) === it;
  return [it.id, Array.from({ length: 60 }, (_, at) => y + height / 2 - 30 + at).filter(isFelt).length, Infinity];
})"""


def card_at(browser, key, place=-1):
    return browser.value(CARD.format(key=key, place=place))


def pile_at(browser, key):
    return browser.value(PILE.format(key=key))


def way(start, end):
    return [[a + (b - a) * step / STEPS for a, b in zip(start, end)] for step in range(STEPS + 1)]


def held(browser):
    return browser.value("all('#left .card.held').map((it) => it.dataset.card)")


def in_pile(browser, key):
    return browser.value(f"cards('left', {key!r}).map((it) => it.dataset.card)")


def tapped(browser):
    """A card is tapped, and then where it goes; one that is tapped twice goes home; a control is tapped."""
    browser.open(WIDE, HIGH)
    [card] = in_pile(browser, "1")[-1:]
    browser.touch(card_at(browser, "1"))
    faults = same("held", [card], held(browser))
    browser.touch(pile_at(browser, "a"))
    faults += same("in cell a", [card], in_pile(browser, "a"))
    browser.touch(browser.value("(({ x, y, width, height }) => [x + width / 2, y + height / 2])(box(at('undo')))"))
    faults += same("undone", [], in_pile(browser, "a"))
    browser.open(WIDE, HIGH, HOME)
    browser.touch(card_at(browser, "1"))
    browser.touch(card_at(browser, "1"))
    return faults + same("home", "KS", (in_pile(browser, "hS") or [""])[-1])


def dragged(browser):
    """A run is dragged by its first card, and the page stays where it is; what is set down beside the boards goes back."""
    browser.open(WIDE, HIGH, RUN)
    browser.touch(*way(card_at(browser, "1", 0), pile_at(browser, "5")))
    faults = same("the run", ["KC", "QD", "JC"], in_pile(browser, "5"))
    faults += same("scrolled", 0, browser.value("scrollY"))
    browser.touch(*way(card_at(browser, "2", 2), [WIDE / 2, 20]))
    faults += same("set down beside", ["KD", "QC", "JD"], in_pile(browser, "2"))
    return faults + same("held", [], held(browser))


def panned(browser):
    """Cards that no move can take let the page scroll, and nothing is taken."""
    browser.open(WIDE, HIGH)
    before = browser.value("board('left')")
    start = card_at(browser, "1", 3)
    browser.touch(*way(start, [start[0], start[1] - 150]))
    faults = same("the board", before, browser.value("board('left')")) + same("held", [], held(browser))
    return faults + (same("scrolled", True, browser.value("scrollY > 0")) if browser.pans else [])


def large(browser):
    """Controls are as large as fingers want them."""
    browser.open(WIDE, HIGH)
    faults = same("coarse", True, browser.value("matchMedia('(pointer: coarse)').matches"))
    browser.value("at('shuffle').click()")
    return faults + [f"{name} is {width} by {height} px" for name, height, width in browser.value(f"[...{LARGE}, ...{FELT}]")
                     if min(height, width or FINGER) < FINGER - .5]


PARTS = {"cards tapped": tapped, "cards dragged by touch": dragged, "the page scrolled by touch": panned,
         "sizes for fingers": large}
