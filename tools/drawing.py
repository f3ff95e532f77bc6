"""Draws one SVG without scripts: shapes, texts that are escaped and cut to their room, a time axis and a legend."""
import colorsys
import unicodedata

FONT = "Helvetica, Arial, 'DejaVu Sans', sans-serif"
INK, GREY, PALE, PAPER = "#1f2430", "#5b6270", "#e3e6eb", "#ffffff"
DEAD, FAULT = "url(#dead)", "#f5b942"  # what fills the place of a dead cub, and of a disk that cannot be read
PIECES = "url(#pieces)"  # what is laid over the colour of a block in pieces
HATCH = "#9aa1ad"  # the lines over the place of a dead cub
PATTERNS = (
    '<pattern id="dead" width="5" height="5" patternUnits="userSpaceOnUse" patternTransform="rotate(45)">'
    f'<rect width="5" height="5" fill="{PALE}"/><rect width="1.5" height="5" fill="{HATCH}"/></pattern>',
    '<pattern id="pieces" width="6" height="6" patternUnits="userSpaceOnUse" patternTransform="rotate(45)">'
    '<rect width="3" height="6" fill="#fff" fill-opacity=".7"/></pattern>')
WIDTHS = {0.36: " .,:;'|!ijlI-", 0.42: "ftr()[]/", 0.55: "csz", 0.82: "w", 1.05: "mMW@%\u2026"}  # shares of the size


def number(value):
    """A coordinate with one digit behind the point at most."""
    text = f"{value:.1f}"
    return text[:-2] if text.endswith(".0") else text


def printable(text):
    """A text in which what is no printable character stands as U+FFFD."""
    return "".join(it if it.isprintable() else "\ufffd" for it in text)


def escaped(text):
    """A printable text as XML may have it."""
    plain = printable(text)
    for sign, name in (("&", "&amp;"), ("<", "&lt;"), (">", "&gt;"), ('"', "&quot;"), ("'", "&#39;")):
        plain = plain.replace(sign, name)
    return plain


def width_of(text, size):
    """The width that a text takes at most, by the widest of the fonts."""
    return size * sum(map(share_of, text))


def share_of(sign):
    """The width of a character as a share of the font's size."""
    found = next((share for share, signs in WIDTHS.items() if sign in signs), None)
    if found is None:
        found = 1.05 if unicodedata.east_asian_width(sign) in "WF" else 0.64 if sign.isascii() else 0.8
        found = max(found, 0.79) if sign.isupper() else found
    return found


def cut(text, room, size):
    """The text, or its beginning with an ellipsis if there is no room for all of it."""
    if width_of(text, size) <= room:
        return text
    while text and width_of(text + "\u2026", size) > room:
        text = text[:-1]
    return text + "\u2026" if text else ""


def longest(choices, room, size):
    """The first of these texts for which there is room; the empty text if there is none."""
    return next((text for text in choices if width_of(text, size) <= room), "")


def colour_of(viewer, light=0.68):
    """A viewer's colour, which is never a red: neighbours by number differ most."""
    hue = (35 + (165 + viewer * 110.77) % 290) / 360
    return "#" + "".join(f"{round(255 * part):02x}" for part in colorsys.hls_to_rgb(hue, light, 0.55))


def seconds(micros):
    """A time in seconds, with the digits behind the point that it needs."""
    text = f"{micros // 1000000}.{micros % 1000000:06}"
    return text.rstrip("0").rstrip(".")


def counted(count, word, words=None):
    """A number with its word in the right form."""
    return f"{count} {word if count == 1 else words or word + 's'}"


class Drawing:
    """The parts of one SVG. What is put `behind` is drawn before all else."""

    def __init__(self, width):
        self.width, self.behind, self.parts = width, [], []

    def shape(self, name, inside="", behind=False, **how):
        """Puts an element; a name with `_` stands for one with `-`."""
        words = "".join(f' {key.replace("_", "-")}="{number(value) if isinstance(value, float) else value}"'
                        for key, value in how.items() if value is not None)
        text = f"<{name}{words}>{inside}</{name}>" if inside else f"<{name}{words}/>"
        (self.behind if behind else self.parts).append(text)

    def box(self, x, y, width, height, fill, says="", **how):
        """Puts a rectangle; what it says is shown by a browser under the pointer."""
        inside = f"<title>{escaped(says)}</title>" if says else ""
        self.shape("rect", inside, x=float(x), y=float(y), width=float(width), height=float(height), fill=fill, **how)

    def path(self, steps, **how):
        """Puts a path of these steps; nothing if there are none."""
        if steps:
            self.shape("path", d="".join(steps), **how)

    def text(self, x, y, words, size=12, fill=INK, **how):
        """Puts a text whose baseline is at y."""
        if words:
            self.shape("text", escaped(words), x=float(x), y=float(y), font_size=size, fill=fill, **how)

    def head(self, title, name, words):
        """Draws the title, and below it a name that may be long and some words; where they end below."""
        room = self.width - 32
        size = next((size for size in (18, 16, 14) if 1.1 * width_of(title, size) <= room), 12)
        self.text(16, 30, title, size, font_weight="bold")
        self.text(16, 52, cut(name, room - width_of(": " + words, 13), 13) + ": " + words, 13, GREY)
        return 52

    def svg(self, height, title):
        """The whole as text."""
        head = (f'<svg xmlns="http://www.w3.org/2000/svg" viewBox="0 0 {self.width} {number(height)}" '
                f'width="{self.width}" height="{number(height)}" font-family="{FONT}" role="img">')
        paper = f'<rect width="{self.width}" height="{number(height)}" fill="{PAPER}"/>'
        rows = [head, f"<title>{escaped(title)}</title>", "<defs>", *PATTERNS, "</defs>", paper,
                *self.behind, *self.parts, "</svg>"]
        return "\n".join(rows) + "\n"


class Scale:
    """Where a time of the run lies across the picture."""

    def __init__(self, left, right, end):
        self.left, self.right, self.end = left, right, end

    def at(self, micros):
        """The place of a time in microseconds."""
        return self.left + (self.right - self.left) * micros / self.end

    def wide(self, micros):
        """The width of some microseconds."""
        return (self.right - self.left) * micros / self.end

    def marks(self):
        """The times that the axis names: round numbers of seconds or of its parts, as near as their words can stand."""
        step, turn = 1, 0
        while not self.has_room(step):
            step = step * 5 // 2 if turn % 3 == 1 else step * 2
            turn += 1
        return range(0, self.end + 1, step)

    def has_room(self, step):
        """Whether the words of marks this far apart keep clear of each other."""
        marks = range(0, self.end + 1, step)
        return len(marks) <= 16 and all(width_of(seconds(it) + " s", 11) + 8 <= self.wide(step) for it in marks[1:])

    def name(self, drawing, y):
        """Draws the seconds of the axis, with their baseline at y."""
        for micros in self.marks():
            drawing.text(self.at(micros), y, seconds(micros) + " s", 11, GREY, text_anchor="middle")

    def rule(self, drawing, top, bottom):
        """Draws the lines of the axis between two heights, behind all else."""
        steps = "".join(f"M{number(self.at(micros))} {number(top)}V{number(bottom)}" for micros in self.marks())
        drawing.shape("path", behind=True, d=steps, stroke=PALE)


def filled(fill, over=None, opacity=None):
    """A swatch that is filled, and filled again with a pattern, or less opaque."""
    def swatch(drawing, x, y):
        """Draws the swatch."""
        drawing.box(x, y, 22, 12, fill, fill_opacity=opacity)
        if over:
            drawing.box(x, y, 22, 12, over)
    return swatch


def legend(drawing, entries, x, y, right):
    """Draws a legend of pairs, a swatch and its words, in as many lines as it needs; where it ends below."""
    at = x
    for swatch, words in entries:
        wide = 30 + width_of(words, 12) + 18
        if at > x and at + wide > right:
            at, y = x, y + 22
        swatch(drawing, at, y)
        drawing.text(at + 30, y + 10, words)
        at += wide
    return y + 22
