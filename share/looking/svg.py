"""SVG: shapes and texts of a picture, and the room that a text takes."""
from xml.sax.saxutils import escape, quoteattr

FONT = "DejaVu Sans, Verdana, Arial, sans-serif"
# how wide letters are in parts of the font's size: the widest of these fonts has them, rounded up
WIDTHS = {letter: part for part, letters in (
    (.36, "ijlIJ' ,./:;\\|f-"), (.43, "()[]t!r"), (.61, "szckvxyaoFLPTY?*_`"), (.7, "ABCKRVXZ"),
    (.87, "DGHMNOQU&w#+<=>^~"), (1, "%mW@")) for letter in letters}
OTHERS, BOLD = .65, 1.12


def width(text, size=11, bold=False):
    """How wide a text is at most."""
    return sum(WIDTHS.get(letter, OTHERS) for letter in text) * size * (BOLD if bold else 1)


def widest(texts, size=11, bold=False):
    """How wide the widest of these texts is."""
    return max((width(text, size, bold) for text in texts), default=0)


def shortened(text, room, size=11, bold=False):
    """A text, or where there is less room its front and its end with two points between; else nothing."""
    if width(text, size, bold) <= room:
        return text
    for kept in range(len(text) - 1, 1, -1):
        short = f"{text[:(kept + 1) // 2]}..{text[-(kept // 2):]}"
        if width(short, size, bold) <= room:
            return short
    return ""


def number(value):
    """A coordinate with one decimal at most."""
    return f"{value:.1f}".removesuffix(".0")


def round_step(count, most):
    """1, 2 or 5, or one of these with zeros behind: such steps go at most so often into a count."""
    step = 1
    while True:
        for factor in (1, 2, 5):
            if count <= step * factor * most:
                return step * factor
        step *= 10


class Picture:
    """Shapes and texts, in the order in which they are drawn."""

    def __init__(self):
        self.parts, self.right, self.bottom = [], 0, 0

    def shape(self, tag, title, inside="", **look):
        """An element; `stroke_width=2` is its attribute stroke-width."""
        words = [f"{name.replace('_', '-')}={quoteattr(number(value) if isinstance(value, float) else str(value))}"
                 for name, value in look.items()]
        inside = (f"<title>{escape(title)}</title>" if title else "") + inside
        end = f">{inside}</{tag}>" if inside else "/>"
        self.parts.append(f"<{' '.join([tag, *words])}{end}")

    def rect(self, x, y, wide, high, title="", **look):
        """A rectangle."""
        self.reach(x + wide, y + high)
        self.shape("rect", title, x=float(x), y=float(y), width=float(wide), height=float(high), **look)

    def path(self, steps, title="", **look):
        """Lines and curves, as SVG spells them."""
        self.shape("path", title, d=steps, **{"fill": "none", "stroke": "#444", **look})

    def text(self, x, y, words, room=None, title="", size=11, bold=False, **look):
        """A text on the line y; what has no room is shortened, and the whole is its title."""
        shown = words if room is None else shortened(words, room, size, bold)
        if not shown:
            return
        if bold:
            look["font_weight"] = "bold"
        if size != 11:
            look["font_size"] = size
        if look.get("text_anchor") is None:
            self.reach(x + width(shown, size, bold), y)
        self.shape("text", title or (words if shown != words else ""), escape(shown), x=float(x), y=float(y), **look)

    def reach(self, x, y):
        """The picture goes so far at least."""
        self.right, self.bottom = max(self.right, x), max(self.bottom, y)

    def legend(self, x, y, right, marks):
        """A colour with its meaning each, in as many lines as they need; where the next line would be."""
        at = x
        for colour, meaning in marks:
            wide = 16 + width(meaning)
            if at > x and at + wide > right:
                at, y = x, y + 18
            self.rect(at, y - 9, 11, 11, fill=colour, stroke="#888", stroke_width=".5")
            self.text(at + 16, y, meaning)
            at += wide + 16
        return y + 18

    def svg(self, title):
        """The file: white behind all, with a margin."""
        wide, high = number(self.right + 12), number(self.bottom + 12)
        return "\n".join([
            f'<svg xmlns="http://www.w3.org/2000/svg" viewBox="0 0 {wide} {high}" width="{wide}" height="{high}"'
            f' font-family="{FONT}" font-size="11">', f"<title>{escape(title)}</title>",
            f'<rect width="{wide}" height="{high}" fill="#ffffff"/>', *self.parts, "</svg>", ""])
