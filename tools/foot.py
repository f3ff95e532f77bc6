"""Draws the two rows at the foot of a timeline: how long each viewer waited for its first block, and how many bytes
were sent in each second.

A wait is that of tools/report: from a viewer's start to the first beat in which a block or a piece was sent to it. A
piece has the bytes that docs/protocol.md gives it. If there are many cubs, the row has the sum of all of them and the
cub that sent the most in a second.
"""
import collections

from drawing import DEAD, GREY, PALE, colour_of, counted, cut, number, seconds, width_of
from reports import SECOND
from rows import median, wait_of

HIGH, BAND, BAR = 48, 12, 10  # the height of the waits, of a cub's band, and of the highest bar in it
RING, CAPTION = 36, 18  # the height of the bytes of all cubs, and of the words above them
MOST_BANDS = 12  # cubs up to which each has a band
MOST_MARKS = 64  # waits up to which each has its viewer's colour
COLUMN, GAP = 2, 12  # the least width of a bar, and from which on there is a gap between two
STEPS = (1, 2, 3, 4, 5, 6, 8)  # the first digit of the number at the top of a scale
SENT = "#6b7c99"  # the colour of what has no colour of a viewer


class Waits:
    """The waits of a run: of each viewer its number, its start and its wait, and the starts of those without one. All
    times are in microseconds."""

    def __init__(self, run):
        beat = run.scenario.beat
        found = [(it.number, it.asked * beat, wait_of(it)) for it in run.viewers]
        self.all = [(viewer, asked, wait * beat) for viewer, asked, wait in found if wait is not None]
        self.none = [asked for _, asked, wait in found if wait is None]
        middle = median(sorted(wait for _, _, wait in self.all))
        self.median = None if middle is None else int(middle)
        self.worst = max(self.all, key=lambda it: (it[2], -it[0]), default=None)

    def words(self):
        """The median and the worst wait in words."""
        if not self.all:
            return "no viewer has a block in the report" if self.none else "no viewer started"
        viewer, _, worst = self.worst
        found = (f"median {seconds(self.median)} s, worst {seconds(worst)} s (viewer {viewer})" if len(self.all) > 1
                 else f"{seconds(worst)} s (viewer {viewer})")
        return f"{found}; {len(self.none)} without one" if self.none else found


class Bytes:
    """The bytes that each cub sent in each second of a run, and the most of them: the bytes, the cub and the second."""

    def __init__(self, run, sends):
        self.cubs = [collections.Counter() for _ in range(run.scenario.cubs)]
        for cub, beat, _, _, length in sends:
            self.cubs[cub][beat * run.scenario.beat // SECOND] += length
        found = ((sent, -second, -cub) for cub, its in enumerate(self.cubs) for second, sent in its.items() if sent)
        sent, second, cub = max(found, default=(0, 0, 0))
        self.most = sent, -cub, -second

    def ring(self):
        """The bytes of all cubs together in each second."""
        return sum(self.cubs, collections.Counter())

    def words(self):
        """All bytes, and the most of a cub in a second, in words."""
        sent, cub, second = self.most
        if not sent:
            return "nothing was sent"
        return (f"{sum(self.ring().values())} in all; most in a second: {sent} by cub {cub}, from {second} s to "
                f"{second + 1} s")


def width_of_bar(scale):
    """The seconds that a bar stands for: so few that bars of all of them can be seen."""
    return next(step * 10 ** power for power in range(20) for step in (1, 2, 5)
                if scale.wide(step * 10 ** power * SECOND) >= COLUMN or step * 10 ** power * SECOND >= scale.end)


def note(picture):
    """Notes if a bar stands for several seconds."""
    step = width_of_bar(picture.scale)
    if step > 1:
        picture.notes.append(f"A bar of bytes stands for {step} seconds, and is as high as the most of one of them.")


def top_of(worst):
    """A round number of microseconds that is not below this one."""
    return next(step * 10 ** power for power in range(20) for step in STEPS if step * 10 ** power >= worst)


def amount(sent):
    """A number of bytes, in three digits if it has more than four."""
    if sent < 10000:
        return counted(sent, "byte")
    power = next(power for power in (1, 2, 3, 4) if sent < 999.5 * 1000 ** power or power == 4)
    return f"{sent / 1000 ** power:.3g} {' kMGT'[power]}B"


def draw_label(picture, y, words):
    """Draws words at the left of a row."""
    picture.drawing.text(picture.scale.left - 10, y, words, 11, GREY, text_anchor="end")


def draw_heading(picture, y, words, said):
    """Draws the heading of a row, and at its right what the row says in numbers; where it ends below."""
    room = picture.scale.right - 16 - 1.1 * width_of(words, 13) - 24
    picture.drawing.text(16, y + 18, words, 13, font_weight="bold")
    picture.drawing.text(picture.scale.right, y + 18, cut(said, room, 12), 12, GREY, text_anchor="end")
    return y + 28


def draw_foot(picture, y, waits, sent):
    """Draws both rows; where they end below."""
    y = draw_waits(picture, y + 20, waits)
    y = draw_bytes(picture, y + 12, sent)
    picture.scale.name(picture.drawing, y + 15)
    return y


# The waits.

def draw_waits(picture, y, waits):
    """Draws the row of waits; where it ends below."""
    drawing, scale = picture.drawing, picture.scale
    y = draw_heading(picture, y, "Waits: from start to first block", waits.words()) + 6
    top, bottom = top_of(waits.worst[2] if waits.worst and waits.worst[2] else SECOND), y + HIGH
    for part, at in ((0, bottom), (top // 2, bottom - HIGH * (top // 2) / top), (top, y)):
        draw_label(picture, at + 4, f"{seconds(part)} s")
        drawing.shape("path", behind=True, d=f"M{number(scale.left)} {number(at)}H{number(scale.right)}", stroke=PALE)
    scale.rule(drawing, y, bottom)
    drawing.parts.append('<g id="waits">')
    marks = [(viewer, scale.at(asked), bottom - HIGH * wait / top) for viewer, asked, wait in waits.all]
    (draw_crowd if len(marks) > MOST_MARKS else draw_marks)(drawing, marks, bottom)
    draw_none(drawing, [scale.at(asked) for asked in waits.none], bottom)
    if len(waits.all) > 1:
        at = bottom - HIGH * waits.median / top
        drawing.path([f"M{number(scale.left)} {number(at)}H{number(scale.right)}"], stroke=GREY, stroke_dasharray="6 4")
    drawing.parts.append("</g>")
    return bottom


def draw_marks(drawing, marks, bottom):
    """Draws each wait in its viewer's colour: a line up from where the viewer started, and a cap on it."""
    for viewer, x, top in sorted(marks, key=lambda it: it[2]):
        colour = colour_of(viewer, 0.45)
        drawing.path([f"M{number(x)} {number(bottom)}V{number(top)}"], stroke=colour)
        drawing.path([f"M{number(x - 4)} {number(top)}h8"], stroke=colour, stroke_width=2)


def draw_crowd(drawing, marks, bottom):
    """Draws many waits as points, over a pale line up to the worst of those that started nearly together."""
    worst = {}
    for _, x, top in marks:
        column = int(x // COLUMN) * COLUMN
        worst[column] = min(top, worst.get(column, bottom))
    drawing.path([f"M{x} {number(bottom)}h{COLUMN}V{number(top)}h{-COLUMN}z" for x, top in sorted(worst.items())],
                 fill=PALE)
    drawing.path([f"M{x} {y}h2" for x, y in sorted({(number(x - 1), number(top)) for _, x, top in marks})],
                 stroke=SENT, stroke_width=2)


def draw_none(drawing, places, bottom):
    """Draws the viewers without a wait as lines that hang below the row."""
    drawing.path([f"M{x} {number(bottom + 1)}v6" for x in sorted(set(map(number, places)))], stroke=GREY,
                 stroke_width=1.5)


# The bytes.

def draw_bytes(picture, y, sent):
    """Draws the row of bytes: a band for each cub, or one for all of them and one for the busiest; where it ends
    below."""
    drawing, scenario = picture.drawing, picture.scenario
    has_bands = scenario.cubs <= MOST_BANDS
    words = f"Bytes: what {'each cub' if has_bands else 'the cubs'} sent in each second, as the report tells it"
    y = draw_heading(picture, y, words, sent.words())
    drawing.parts.append('<g id="bytes">')
    if has_bands:
        picture.scale.rule(drawing, y, y + BAND * scenario.cubs)
        bottom = draw_bands(picture, y, sent)
    else:
        bottom = draw_large(picture, y, "all cubs together", sent.ring())
        if sent.most[0]:
            words = f"cub {sent.most[1]}, which sent the most in a second"
            bottom = draw_large(picture, bottom + 8, words, sent.cubs[sent.most[1]])
    drawing.parts.append("</g>")
    return bottom


def draw_bands(picture, y, sent):
    """Draws a band for each cub, hatched while it is dead; all of them have one scale."""
    scenario, scale = picture.scenario, picture.scale
    picture.bands = y
    for cub, its in enumerate(sent.cubs):
        top = y + cub * BAND
        draw_label(picture, top + BAND - 2, f"cub {cub}")
        picture.drawing.shape("path", behind=True, stroke=PALE,
                              d=f"M{number(scale.left)} {number(top + BAND)}H{number(scale.right)}")
        if cub in scenario.deaths:
            x, end = map(scale.at, scenario.dead_time(cub))
            picture.drawing.box(x, top + 1, end - x, BAND - 2, DEAD)
        draw_bars(picture, top + BAND, BAR, its, sent.most[0])
    return y + BAND * scenario.cubs


def draw_large(picture, y, words, its):
    """Draws a large band with words above it and a scale of its own; where it ends below."""
    scale, most, top = picture.scale, max(its.values(), default=0), y + CAPTION
    picture.drawing.text(scale.left + 2, y + 12, words, 11, GREY)
    for at, label in ((top, amount(most)), (top + RING, "0")):
        draw_label(picture, at + 4, label)
        picture.drawing.shape("path", behind=True, stroke=PALE,
                              d=f"M{number(scale.left)} {number(at)}H{number(scale.right)}")
    scale.rule(picture.drawing, top, top + RING)
    draw_bars(picture, top + RING, RING, its, most)
    return top + RING


def draw_bars(picture, bottom, high, its, most):
    """Draws the bytes of some seconds as bars that stand on a line; the most would be so high. Narrow bars that are
    alike are one."""
    scale, step, bars = picture.scale, width_of_bar(picture.scale), []
    gap = 1 if scale.wide(step * SECOND) >= GAP else 0
    for column, sent in sorted(columns_of(its, step).items()):
        if bars and not gap and bars[-1][1:] == [column, sent]:
            bars[-1][1] = column + 1
        else:
            bars.append([column, column + 1, sent])
    steps = []
    for *sides, sent in bars:
        begin, end = (scale.at(min(scale.end, at * step * SECOND)) for at in sides)
        steps.append(f"M{number(begin)} {number(bottom)}H{number(end - gap)}V{number(bottom - high * sent / most)}"
                     f"H{number(begin)}z")
    picture.drawing.path(steps, fill=SENT)


def columns_of(its, step):
    """The most bytes in one of the seconds of each bar, for bars that stand for so many seconds and have some."""
    columns = collections.defaultdict(int)
    for second, sent in its.items():
        if sent:
            columns[second // step] = max(columns[second // step], sent)
    return columns


# The legend.

def entries(picture, waits, sent):
    """The legend's pairs of a swatch and its words."""
    is_crowd = len(waits.all) > MOST_MARKS
    found = [(crowd_swatch if is_crowd else mark_swatch, "how long a viewer waited")] if waits.all else []
    if len(waits.all) > 1:
        found.append((median_swatch, "the median wait"))
    if waits.none:
        found.append((none_swatch, "a viewer without a block in the report"))
    if sent.most[0]:
        scale = f"; a full band is {amount(sent.most[0])}" if picture.scenario.cubs <= MOST_BANDS else ""
        found.append((bars_swatch, f"bytes sent in a second{scale}"))
    return found


def mark_swatch(drawing, x, y):
    """The swatch of a wait in its viewer's colour."""
    draw_marks(drawing, [(0, x + 11, y + 1)], y + 12)


def crowd_swatch(drawing, x, y):
    """The swatch of one wait of many."""
    draw_crowd(drawing, [(0, x + 11, y + 2)], y + 12)


def median_swatch(drawing, x, y):
    """The swatch of the median."""
    drawing.path([f"M{number(x)} {number(y + 6)}h22"], stroke=GREY, stroke_dasharray="6 4")


def none_swatch(drawing, x, y):
    """The swatch of a viewer without a wait."""
    drawing.path([f"M{number(x)} {number(y + 3)}h22"], stroke=PALE)
    draw_none(drawing, [x + 11], y + 3)


def bars_swatch(drawing, x, y):
    """The swatch of bytes."""
    drawing.path([f"M{number(x + at)} {number(y + 12)}h6v{-high}h-6z" for at, high in ((0, 6), (7, 12), (14, 9))],
                 fill=SENT)
