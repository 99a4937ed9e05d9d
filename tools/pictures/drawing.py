"""A picture of rectangles, lines and words, as SVG that a page, a document and the paper (`tikz` beside this file) can show."""

from html import escape

INK, PALE, LINE, BOX = "#1c1c1c", "#555555", "#888888", "#f3f3ee"
RED, GREEN, BLUE, ORANGE = "#c0202c", "#1f5e45", "#25507f", "#b8701a"


class Picture:
    """What is drawn, one thing after another, on paper of a light colour: so it can be read on a dark page too."""

    def __init__(self, title):
        self.title, self.parts, self.width, self.height = title, [], 0, 0

    def grow(self, right, below):
        self.width, self.height = max(self.width, right), max(self.height, below)

    def box(self, x, y, wide, high, fill=BOX, says=""):
        inner = f"><title>{escape(says)}</title></rect>" if says else "/>"
        self.parts.append(f'<rect x="{x:g}" y="{y:g}" width="{wide:g}" height="{high:g}" rx="3" fill="{fill}"{inner}')
        self.grow(x + wide, y + high)

    def words(self, x, y, text, size=11, fill=INK, anchor="start"):
        where = "" if anchor == "start" else f' text-anchor="{anchor}"'
        self.parts.append(f'<text x="{x:g}" y="{y:g}" font-size="{size}" fill="{fill}"{where}>{escape(text, False)}</text>')
        self.grow(x, y + 4)

    def curve(self, x, y, to_x, to_y, colour=LINE, wide=1):
        """A line down that begins and ends straight."""
        middle = (y + to_y) / 2
        self.parts.append(f'<path d="M{x:g} {y:g} C{x:g} {middle:g} {to_x:g} {middle:g} {to_x:g} {to_y:g}" fill="none" '
                          f'stroke="{colour}" stroke-width="{wide:g}"/>')

    def svg(self):
        wide, high = self.width + 10, self.height + 10
        return "\n".join([
            f'<svg xmlns="http://www.w3.org/2000/svg" width="{wide:g}" height="{high:g}" viewBox="0 0 {wide:g} {high:g}" font-family="system-ui, sans-serif" role="img">',
            f"<title>{escape(self.title)}</title>", f'<rect x="0" y="0" width="{wide:g}" height="{high:g}" rx="6" fill="#fdfdfb"/>',
            *self.parts, "</svg>\n"])
