"""Draws the rows of a sweep as one SVG without scripts: missing blocks by reason, and waits, against the first key.

For each choice of the other keys' values there is a row of two panels. A point that was not run is a gap in the lines,
with a hatched mark at its place.
"""
import itertools

from drawing import DEAD, GREY, INK, PALE, Drawing, counted, legend, number, width_of

WIDTH, TALL = 960, 190  # of the picture, and of a panel
PANELS = ((68, 450), (544, 926))  # where the panels begin and end across
HEADROOM = 1.06  # the top of an upright axis beside the highest number
MOST_ROWS = 12  # rows of panels
MISSING = (("missing_dead", "dead: its cub was dead", "#8a0f16"), ("missing_read", "read: its read failed", "#d97706"),
           ("missing_piece", "piece: a piece did not come", "#7c3aed"))
WAITS = (("wait_worst", "the worst wait", "#1d4ed8"), ("wait_median", "the median wait", "#0f9d76"))
UNITS = {**dict.fromkeys(("play", "beat", "skew", "window_a", "window_b", "read_lead", "min_lead", "max_lead",
                          "deadman", "hold"), "microseconds"),
         **dict.fromkeys(("delay", "batch", "heart", "beats", "fixed"), "beats"), "block": "bytes"}


def value_of(row, name):
    """A number of a row; None if it has none."""
    text = str(row.get(name) if row.get(name) is not None else "")
    return float(text) if text else None


def digits(value):
    """A number as the axis names it."""
    return f"{value:.0f}" if value == int(value) else f"{value:g}"


class Axis:
    """Where the numbers from `low` to `high` lie between two places."""

    def __init__(self, low, high, begin, end):
        self.low, self.high, self.begin, self.end = low, high if high > low else low + 1, begin, end

    def at(self, value):
        """The place of a number."""
        return self.begin + (self.end - self.begin) * (value - self.low) / (self.high - self.low)

    def marks(self, room):
        """Round numbers whose places keep at least so much room between them."""
        for step in (digit * 10 ** power for power in range(22) for digit in (1, 2, 5)):
            first = -(-self.low // step) * step
            found = [first + step * turn for turn in range(int((self.high - first) // step) + 1)]
            if abs(self.at(self.low + step) - self.begin) >= room or len(found) <= 1:
                return found


class Panel:
    """A panel of a plot: its heading, its lines with their names and colours, and its two axes."""

    def __init__(self, drawing, span, top, heading, lines, rows, key, across, highest):
        self.drawing, self.top, self.lines, self.rows, self.key = drawing, top, lines, rows, key
        self.across = Axis(*across, *span)
        self.up = Axis(0, HEADROOM * max(highest, 1), top + TALL, top)
        drawing.text(span[0], top - 10, heading, 12, GREY)

    def draw(self):
        """Draws the panel."""
        begin, end = self.across.begin, self.across.end
        self.drawing.shape("rect", behind=True, x=float(begin), y=float(self.top), width=float(end - begin),
                           height=float(TALL), fill="#fafbfc", stroke=PALE)
        self.draw_axes()
        for row in self.rows:
            if str(row["status"]) != "0":
                self.drawing.box(self.across.at(value_of(row, self.key)) - 3, self.top, 6, TALL, DEAD, said_of(row))
        for turn, (name, _, colour) in enumerate(self.lines):
            self.draw_line(name, colour, 1 + turn)

    def draw_axes(self):
        """Draws the numbers of both axes, and lines at those of the upright one."""
        begin, end, bottom = self.across.begin, self.across.end, self.top + TALL
        for value in self.up.marks(26):
            self.drawing.shape("path", behind=True, d=f"M{number(begin)} {number(self.up.at(value))}H{number(end)}",
                               stroke=PALE)
            self.drawing.text(begin - 8, self.up.at(value) + 4, digits(value), 11, GREY, text_anchor="end")
        widest = max(width_of(digits(value), 11) for value in (self.across.low, self.across.high))
        for value in self.across.marks(widest + 16):
            self.drawing.path([f"M{number(self.across.at(value))} {number(bottom)}v4"], stroke=GREY)
            self.drawing.text(self.across.at(value), bottom + 17, digits(value), 11, GREY, text_anchor="middle")
        unit = f" ({UNITS[self.key]})" if self.key in UNITS else ""
        self.drawing.text((begin + end) / 2, bottom + 33, self.key + unit, 11, INK, text_anchor="middle")

    def draw_line(self, name, colour, size):
        """Draws a line through the points that have this number; it is broken at each one that has none."""
        steps, dots, is_broken = [], [], True
        for row in self.rows:
            value = value_of(row, name)
            if value is not None:
                x, y = number(self.across.at(value_of(row, self.key))), number(self.up.at(value))
                steps.append(f"{'M' if is_broken else 'L'}{x} {y}")
                dots.append(f"M{x} {y}h0")
            is_broken = value is None
        self.drawing.path(steps, fill="none", stroke=colour, stroke_width=1.5)
        self.drawing.path(dots, stroke=colour, stroke_width=3 + 2 * size, stroke_linecap="round", stroke_opacity=0.8)


def said_of(row):
    """What is said of a point that was not run."""
    return row.get("refusal") or str(row["status"])


def groups_of(keys, rows):
    """The rows for each choice of the values of all keys but the first, in the order of the first one's values."""
    def others(row):
        """The words that name a choice."""
        return ", ".join(f"{key} {row[key]}" for key in keys[1:])
    order = list(dict.fromkeys(map(others, rows)))
    placed = sorted(rows, key=lambda row: (order.index(others(row)), int(row[keys[0]])))
    return [(words, list(group)) for words, group in itertools.groupby(placed, others)]


def plot(keys, rows, name):
    """The picture of some rows of a sweep of a scenario with this name, as SVG."""
    drawing, key = Drawing(WIDTH), keys[0]
    ran = sum(str(row["status"]) == "0" for row in rows)
    title = f"Missing blocks and waits against {key}"
    without = f", and {counted(len(rows) - ran, 'point')} without a run" if ran < len(rows) else ""
    y = drawing.head(title, name, counted(ran, "run") + without)
    groups = groups_of(keys, rows)
    if len(groups) > MOST_ROWS:
        y += 18
        drawing.text(16, y, f"Of {len(groups)} choices of the other keys the first {MOST_ROWS} are drawn.", 12, GREY)
    lines = [line for line in MISSING if any(value_of(row, line[0]) for row in rows)]
    places = [int(row[key]) for row in rows] or [0]
    highest = [max((value_of(row, line[0]) or 0 for row in rows for line in part), default=0)
               for part in (MISSING, WAITS)]
    for words, group in groups[:MOST_ROWS]:
        y += 36
        drawing.text(16, y - 8, words, 13, INK, font_weight="bold")
        y += 20 if words else 0
        for span, heading, part, high in zip(PANELS, (f"missing blocks{'' if lines else ': none'}", "waits (beats)"),
                                             (lines, WAITS), highest):
            Panel(drawing, span, y, heading, part, group, key, (min(places), max(places)), high).draw()
        y += TALL + 40
    y = legend(drawing, entries(lines, rows), PANELS[0][0], y + 8, WIDTH - 8)
    return drawing.svg(y + 8, f"{name}: {title}")


def entries(lines, rows):
    """The pairs of the legend."""
    found = [(stroke(colour), words) for _, words, colour in (*lines, *WAITS)]
    if any(str(row["status"]) != "0" for row in rows):
        found.append((lambda drawing, x, y: drawing.box(x + 8, y, 6, 12, DEAD), "refused, or not run to its end"))
    return found


def stroke(colour):
    """The swatch of a line."""
    def swatch(drawing, x, y):
        """Draws the swatch."""
        drawing.path([f"M{number(x)} {number(y + 6)}h22"], stroke=colour, stroke_width=1.5)
        drawing.path([f"M{number(x + 11)} {number(y + 6)}h0"], stroke=colour, stroke_width=6, stroke_linecap="round")
    return swatch
