"""The page by the keyboard alone: nothing but keys is pressed."""

from urllib.parse import quote

from lib.report import same
from page.walking import EXAMPLE

MOST_STOPS = 150  # presses of Tab that lead through the whole page
RUN = "@ freecell run\nFound: H-K C-T D-T S-K\nKC QD JC\nKD QC JD\n"  # the board of README.md
SOLUTION = next(line for line in EXAMPLE.split("@ freecell deal-1\n")[1].split("\n") if line.startswith(">"))
# What is worked on the page, and is seen.
CONTROLS = """all('a[href], button, input, select, textarea, summary, [tabindex="0"]')
  .filter((it) => it.checkVisibility() && !it.closest('.hidden'))"""
NAMED = "((it) => it.id || it.dataset.name || it.ariaLabel || it.textContent.trim())"
FOCUSED = f"{NAMED}(document.activeElement)"


def go_to(browser, selector, *shift):
    """Tab is pressed until what is looked for has the focus; with Shift it leads back."""
    for _ in range(MOST_STOPS):
        if browser.value(f"document.activeElement.matches({selector!r})"):
            return
        browser.press(*shift, "Tab")
    raise LookupError(f"Tab does not lead to {selector}")


def go_in_board(browser, key):
    """The arrows lead from the board's stop to a pile."""
    browser.press("Home")
    place = browser.value(f"all('#left .pile').findIndex((it) => it.dataset.key === {key!r})")
    for _ in range(place):
        browser.press("ArrowRight")


def move(browser, from_key, to_key):
    for key in (from_key, to_key):
        go_in_board(browser, key)
        browser.press("Enter")


def reached(browser):
    """Tab leads to all that is worked, never stays, and one sees where it is."""
    browser.open(1440, 900)
    wanted, visited, faults = set(browser.value(f"{CONTROLS}.map({NAMED})")), [], []
    for _ in range(MOST_STOPS):
        browser.press("Tab")
        stop, is_seen = browser.value(f"""[{FOCUSED}, document.activeElement === document.body
            || getComputedStyle(document.activeElement).outlineStyle !== 'none']""")
        faults += same(f"the focus seen at {stop}", True, is_seen)
        if visited[-1:] == [stop] and stop in wanted:
            faults.append(f"Tab stays at {stop}")
            break
        visited.append(stop)
        if wanted <= set(visited):
            break
    return faults + [f"Tab does not lead to {stop}" for stop in sorted(wanted - set(visited))]


def played(browser):
    """A card goes to a cell by arrows and Enter, and comes back; letters play; Shift with an arrow takes a run."""
    browser.open(1440, 900)
    before = browser.value("board('left')")
    go_to(browser, "#left .pile")
    go_in_board(browser, "1")
    card = browser.value("cards('left', '1').at(-1).dataset.card")
    browser.press("Enter")
    faults = same("held", [card], browser.value("all('#left .card.held').map((it) => it.dataset.card)"))
    browser.press("ArrowUp")
    browser.press("Enter")
    faults += same("in cell a", [card], browser.value("cards('left', 'a').map((it) => it.dataset.card)"))
    faults += same("the focus", "cell a", browser.value(FOCUSED))
    browser.press("Control", "z")
    faults += same("undone", before, browser.value("board('left')"))
    browser.type("1a")
    faults += same("typed", [card], browser.value("cards('left', 'a').map((it) => it.dataset.card)"))
    browser.press("Control", "z")
    go_in_board(browser, "1")
    browser.press("Enter")
    browser.press("Escape")
    faults += same("let go", 0, browser.value("all('.card.held').length"))
    browser.open(1440, 900, "#text=" + quote(RUN))
    go_to(browser, "#left .pile")
    browser.press("Enter")
    browser.press("Shift", "ArrowUp")
    go_in_board(browser, "5")
    browser.press("Enter")
    return faults + same("two of a run", ["QD", "JC"], browser.value("cards('left', '5').map((it) => it.dataset.card)"))


def solved(browser, moves=6):
    """The first moves of a solution by arrows and Enter lead where its steps lead."""
    browser.open(1440, 900, "#deal=1&list=" + quote(SOLUTION))
    go_to(browser, "#on")
    for _ in range(moves):
        browser.press("Enter")
    wanted = browser.value("board('left')")
    go_to(browser, "#first", "Shift")
    browser.press("Enter")
    go_to(browser, "#left .pile", "Shift")
    for from_key, to_key in SOLUTION.split()[1:moves + 1]:
        suit = browser.value(f"cards('left', {from_key!r}).at(-1).dataset.card[1]")
        move(browser, from_key, f"h{suit}" if to_key == "h" else to_key)
    return same("the board after them", wanted, browser.value("board('left')"))


def controlled(browser):
    """Shuffle, a deal, a fault's place, what opens, and what is chosen."""
    browser.open(1440, 900)
    go_to(browser, "#shuffle")
    browser.press("Enter")
    faults = same("shuffled", "same canonical board.", browser.value("at('counter').textContent")[-21:])
    go_to(browser, "#keys")
    browser.press(" ")
    faults += same("letters off", False, browser.value("at('keys').checked"))
    go_to(browser, "summary")
    browser.press("Enter")
    faults += same("opened", True, browser.value("document.querySelector('details').open"))
    go_to(browser, "#deal")
    browser.press("Control", "a")
    browser.type("617")
    browser.press("Enter")
    faults += same("dealt", "deal-617, FreeCell", browser.value("at('boards-title').textContent"))
    go_to(browser, "#text")
    browser.press("Control", "a")
    browser.type("KC 1 2")
    go_to(browser, "#faults button")
    browser.press("Enter")
    selected = "at('text').value.slice(at('text').selectionStart, at('text').selectionEnd)"
    return faults + same("selected", ["text", "1"], browser.value(f"[{FOCUSED}, {selected}]"))


PARTS = {"stops of Tab": reached, "cards moved by keys": played, "a solution by keys": solved, "controls by keys": controlled}
