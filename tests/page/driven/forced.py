"""The page where the reader's system chooses all colours: what colours said is said by lines."""

from lib.report import same

# The line around a thing that is seen, and none where it has none.
LINE = """((it, part) => { const { outlineStyle: style, outlineWidth: width, outlineColor: colour } = getComputedStyle(it, part);
  return style === 'none' || width === '0px' || colour === 'rgba(0, 0, 0, 0)' ? 'none' : `${style} ${width}`; })"""
BORDER = """((it, part) => { const { borderTopStyle: style, borderTopWidth: width } = getComputedStyle(it, part);
  return style === 'none' || width === '0px' ? 'none' : `${style} ${width}`; })"""


def lines(browser, selector, kind=LINE):
    """Those around what is selected, each once."""
    return set(browser.value(f"all({selector!r}).map((it) => {kind}(it))"))


def differing(browser, chosen, others, kind=LINE):
    """What is chosen has a line that others have not."""
    found = lines(browser, chosen, kind)
    if not found:
        return [f"{chosen} is not there"]
    return [f"{chosen} looks like others: {line}" for line in found & lines(browser, others, kind)]


def cards(browser):
    """Faces keep two colours, and empty piles and boards have borders."""
    browser.open(1440, 900)
    faults = same("forced", True, browser.value("matchMedia('(forced-colors: active)').matches"))
    faces = browser.value("""['.face.red', '.face:not(.red)'].map((face) => getComputedStyle(all(face)[0]).color)""")
    faults += same("two colours of faces", 2, len(set(faces)))
    bare = browser.value(f"""[...all('.pile').map((it) => {BORDER}(it, '::after')), ...all('.board').map((it) => {BORDER}(it))]
        .filter((line) => line === 'none').length""")
    return faults + same("piles and boards without a border", 0, bare)


def chosen(browser):
    """What is shown among the boards that were seen and the records, and what has nothing to do, is told from the others."""
    browser.open(1440, 900)
    browser.value("at('shuffle').click()")
    faults = differing(browser, ".seen[aria-pressed=true]", ".seen[aria-pressed=false]")
    faults += differing(browser, "#gathered li.now", "#gathered li:not(.now)", BORDER)
    faults += differing(browser, "#groups button[aria-pressed=true]", "#groups button[aria-pressed=false]")
    colours = browser.value("['#redo', '#undo'].map((id) => getComputedStyle(all(id)[0]).color)")
    return faults + same("two colours of undo and redo", 2, len(set(colours)))


def held(browser):
    """A held card, where it may go, two swapped cards and the card that was moved have each a look of their own."""
    browser.open(1440, 900)
    browser.type("1")
    faults = differing(browser, ".card.held .face", ".card:not(.held) .face")
    faults += differing(browser, ".pile.target", ".pile:not(.target)")
    looks = lines(browser, ".card.held .face") | lines(browser, ".pile.target")
    browser.type("a")
    faults += differing(browser, ".card.moved .face", ".card:not(.moved) .face")
    looks |= lines(browser, ".card.moved .face")
    browser.value("at('swap').click()")
    faults += differing(browser, ".card.exchanged .face", ".card:not(.exchanged) .face")
    looks |= lines(browser, ".card.exchanged .face")
    return faults + same("their looks", 4, len(looks))


def focused(browser):
    """Where the focus is has a line, at a control and at a pile."""
    browser.open(1440, 900)
    faults = []
    for _ in range(4):
        browser.press("Tab")
        is_bare = browser.value(f"{LINE}(document.activeElement) === 'none'")
        faults += same("the focus without a line", False, is_bare)
    return faults


PARTS = {"cards in forced colours": cards, "what is chosen in forced colours": chosen, "what is held in forced colours": held,
         "the focus in forced colours": focused}
