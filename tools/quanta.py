"""Draws the quanta of a network's schedule at the end of its run: along the picture the quanta of the ring by their
cubs, and upwards the rates of the placed entries, each on those before it, up to the capacity. Below are the entries
that are not placed.

If very many entries are placed, the sum of their rates is drawn as one, and a line below the title says so.
"""
import math

from drawing import (GREY, INK, PALE, Drawing, colour_of, counted, filled, legend, longest, number, width_of)
from foot import SENT
from nets import FULL, PLACED, REFUSED, STATES, STOPPED, WAITING

WIDTH, LEFT, RIGHT, INDENT = 960, 112, 924, 36
HIGH, ABOVE = 220, 26  # the height of the capacity, and the room above it
MOST_BOXES = 150  # placed entries up to which each is drawn by itself
MOST_LISTED = 12  # entries of a state that are listed below
WIDE = 40  # the width of a piece from which on it has its number, if another one of the entry is larger
MOST_SHARE = 20  # the capacity is drawn if the peak is no smaller part of it
MOST_MARKS = 6  # lines between no rate and the capacity
BAND = "#f4f5f8"  # the ground behind the quanta of every other cub
WHY = {FULL: "the cub had no room", REFUSED: "the next cub had no room", WAITING: "no answer of the next cub came",
       STOPPED: "a stop came"}


class Chart:
    """A plan that is being drawn: the drawing, and where its quanta and rates lie."""

    def __init__(self, net):
        self.net, self.drawing = net, Drawing(WIDTH)
        self.most = net.capacity if net.peak * MOST_SHARE >= net.capacity else max(net.peak, 1)
        self.floor = 0  # the height at which no rate is
        self.notes = []

    def at(self, quantum):
        """Where a quantum begins."""
        return LEFT + (RIGHT - LEFT) * quantum / self.net.ring

    def up(self, rate):
        """The height of a rate."""
        return self.floor - HIGH * rate / self.most


def quanta(net, name):
    """The picture of a plan with this name, as SVG."""
    chart = Chart(net)
    placed = net.of(PLACED)
    note(chart, placed)
    y = draw_head(chart, name)
    chart.drawing.text(16, y + 18, "Quanta: what the placed entries take of them at the end of the run", 13,
                       font_weight="bold")
    chart.floor = y + 32 + ABOVE + HIGH
    draw_ground(chart)
    stack = [] if len(placed) > MOST_BOXES else stacked(net, placed)
    for part in stack:
        draw_part(chart, part)
    draw_sum(chart, is_filled=len(placed) > MOST_BOXES)
    draw_limits(chart)
    y = draw_others(chart, draw_axis(chart) + 12)
    y = legend(chart.drawing, entries(chart, stack), LEFT, y + 16, WIDTH - 8)
    return chart.drawing.svg(y + 12, f"{name}: {totals_of(net)}")


# The head.

def totals_of(net):
    """How the entries stand, in one sentence."""
    counts = [(len(net.of(state)), state) for state in STATES]
    found = ", ".join(f"{count} {state}" for count, state in counts if count)
    return f"{counted(len(net.entries), 'entry', 'entries')}: {found}" if found else "No entry was asked for"


def note(chart, placed):
    """Notes on what is not drawn."""
    if len(placed) > MOST_BOXES:
        chart.notes.append(f"{len(placed)} entries are placed: "
                           "the sum of their rates is drawn, and no entry by itself.")
    if chart.most < chart.net.capacity:
        chart.notes.append(f"The capacity lies far above the picture, whose top is the peak, {chart.net.peak}.")


def draw_head(chart, name):
    """Draws the title, the ring and the notes; where they end below."""
    net = chart.net
    words = (f"{net.cubs} cubs with {counted(net.quanta, 'quantum', 'quanta')} each, capacity {net.capacity}; "
             + (f"peak {net.peak} at quantum {net.peak_at}" if net.peak else "nothing was ever placed"))
    y = chart.drawing.head(totals_of(net), name, words)
    for text in chart.notes:
        y += 18
        chart.drawing.text(16, y, text, 12, GREY, font_style="italic")
    return y + 14


# The ground, the axis and the limits.

def draw_ground(chart):
    """Draws a band behind the quanta of every other cub, and lines for some rates."""
    net, drawing, top = chart.net, chart.drawing, chart.floor - HIGH
    for cub in range(1, net.cubs, 2):
        x = chart.at(cub * net.quanta)
        drawing.box(x, top, chart.at((cub + 1) * net.quanta) - x, HIGH, BAND)
    step = next(first * 10 ** power for power in range(20) for first in (1, 2, 5)
                if first * 10 ** power * MOST_MARKS >= chart.most)
    for rate in range(0, chart.most, step):
        y = chart.up(rate)
        drawing.path([f"M{LEFT} {number(y)}H{RIGHT}"], stroke=GREY if rate == 0 else PALE)
        if y >= top + 14:
            drawing.text(LEFT - 10, y + 4, str(rate), 11, GREY, text_anchor="end")


def draw_axis(chart):
    """Draws the numbers of quanta and of cubs below the boxes; where they end below."""
    net, drawing, y = chart.net, chart.drawing, chart.floor
    is_wide = (RIGHT - LEFT) / net.ring >= room_of(net.ring - 1)
    own = range(net.ring) if is_wide else range(0, net.ring, net.quanta)
    draw_numbers(chart, y + 16, "quantum", [(at, at + 0.5) for at in own])
    draw_numbers(chart, y + 34, "cub", [(cub, (cub + 0.5) * net.quanta) for cub in range(net.cubs)], INK)
    high = 38 if (RIGHT - LEFT) / net.cubs >= room_of(net.ring - 1) else 5
    steps = [f"M{number(chart.at(cub * net.quanta))} {number(y)}v{high}" for cub in range(net.cubs + 1)]
    drawing.path(steps, stroke=GREY)
    return y + 38


def room_of(number):
    """The width that a number takes on the axis."""
    return width_of(str(number), 11) + 6


def draw_numbers(chart, y, words, places, fill=GREY):
    """Draws numbers at their places among the quanta, as many as keep clear of each other, and at the left what they
    are."""
    chart.drawing.text(LEFT - 10, y, words, 11, fill, text_anchor="end")
    half = room_of(places[-1][0]) / 2
    step = math.ceil(2 * half * len(places) / (RIGHT - LEFT))
    for which, place in places[::step]:
        x = max(chart.at(place), LEFT + room_of(which) / 2)
        if x + half <= RIGHT + 6:
            chart.drawing.text(x, y, str(which), 11, fill, text_anchor="middle")


def draw_limits(chart):
    """Draws the capacity, and the peak at its quantum."""
    net, drawing = chart.net, chart.drawing
    top = chart.floor - HIGH
    if chart.most == net.capacity:
        drawing.path([f"M{LEFT} {number(top)}H{RIGHT}"], stroke=INK, stroke_width=2)
        drawing.text(LEFT - 10, top - 9, "capacity", 11, INK, text_anchor="end")
        drawing.text(LEFT - 10, top + 4, str(net.capacity), 11, INK, text_anchor="end")
    if net.peak:
        words, y = f"peak {net.peak}", chart.up(net.peak)
        x = chart.at(net.peak_at + 0.5)
        half = width_of(words, 11) / 2
        drawing.path([f"M{number(x)} {number(top - 10)}V{number(y)}"], stroke=INK, stroke_dasharray="2 2")
        drawing.path([f"M{number(x - 4)} {number(y)}h8"], stroke=INK, stroke_width=3)
        drawing.text(min(max(x, LEFT + half), RIGHT - half), top - 14, words, 11, INK, text_anchor="middle")


# The entries.

class Part:
    """What an entry takes from one quantum to another without a gap: pieces of two quanta and two rates, of which each
    begins where the one before it ends. One of the two parts of an entry that goes on with quantum 0 is the first. The
    rank of an entry is its number among the placed ones by where they begin, so that neighbours differ in colour."""

    def __init__(self, entry, rank, age, is_first, is_last):
        self.entry, self.rank, self.age = entry, rank, age
        self.is_first, self.is_last, self.pieces = is_first, is_last, []

    def take(self, first, end, low, high):
        """Goes on to another quantum at these rates."""
        if self.pieces and self.pieces[-1][2:] == (low, high):
            first = self.pieces.pop()[0]
        self.pieces.append((first, end, low, high))


def stacked(net, placed):
    """The parts of the placed entries, with what lies below each in every quantum: those that began earlier."""
    starts, ends = {}, {}
    for rank, entry in enumerate(sorted(placed, key=lambda it: (it.at, it.instance))):
        spans = net.spans(entry)
        for turn, (first, end) in enumerate(spans):
            age = entry.at - turn * net.ring, entry.instance
            part = Part(entry, rank, age, turn == 0, turn == len(spans) - 1)
            starts.setdefault(first, []).append(part)
            ends.setdefault(end, []).append(part)
    marks, there, found = sorted({*starts, *ends}), [], []
    for first, end in zip(marks, marks[1:]):
        there = sorted([part for part in there if part not in ends.get(first, ())] + starts.get(first, []),
                       key=lambda part: part.age)
        found += starts.get(first, [])
        low = 0
        for part in there:
            part.take(first, end, low, low + part.entry.rate)
            low += part.entry.rate
    return found


def draw_part(chart, part):
    """Draws a part with its number, and where it is largest its rate too, if there is room; a mark tells that it goes
    on elsewhere."""
    entry, drawing = part.entry, chart.drawing
    colour, ink = colour_of(part.rank), colour_of(part.rank, 0.42)
    there = [(chart.at(first), chart.at(end), chart.up(low), chart.up(high)) for first, end, low, high in part.pieces]
    over = "".join(f"V{number(top)}H{number(right)}" for _, right, _, top in there)
    under = "".join(f"V{number(bottom)}H{number(left)}" for left, _, bottom, _ in reversed(there))
    drawing.shape("path", f"<title>{entry.words()}</title>",
                  d=f"M{number(there[0][0])} {number(there[0][2])}{over}{under}z", fill=colour, stroke=ink)
    largest = max(there, key=lambda it: (it[1] - it[0]) * min(it[2] - it[3], 40))
    for piece in there:
        draw_words(drawing, piece, entry, is_largest=piece == largest)
    for is_whole, x, piece in ((part.is_first, LEFT - 7, there[0]), (part.is_last, RIGHT + 2, there[-1])):
        if not is_whole:
            draw_arrow(drawing, x, (piece[2] + piece[3]) / 2, ink)


def draw_words(drawing, piece, entry, is_largest):
    """Draws the number of an entry in a piece of it, and in the largest one what else there is room for."""
    left, right, bottom, top = piece
    if bottom - top >= 12 and (is_largest or right - left >= WIDE):
        choices = [f"entry {entry.instance}, rate {entry.rate}", f"entry {entry.instance}"] if is_largest else []
        words = longest([*choices, str(entry.instance)], right - left - 6, 11)
        drawing.text((left + right) / 2, (bottom + top) / 2 + 4, words, 11, text_anchor="middle")


def draw_arrow(drawing, x, y, fill):
    """Draws the mark of an entry that goes on from the last quantum with the first one."""
    drawing.path([f"M{number(x)} {number(y - 4)}l5 4l-5 4z"], fill=fill)


def draw_sum(chart, is_filled):
    """Draws the sum of the placed rates as a line, or if that is asked for as one shape."""
    sums = chart.net.sums()
    if not sums:
        return
    steps = "".join(f"H{number(chart.at(quantum))}V{number(chart.up(total))}"
                    for quantum, total in sorted(sums.items()))
    if is_filled:
        chart.drawing.path([f"M{LEFT} {number(chart.floor)}{steps}H{RIGHT}V{number(chart.floor)}z"], fill=SENT)
    else:
        chart.drawing.path([f"M{LEFT} {number(chart.floor)}{steps}H{RIGHT}"], fill="none", stroke=INK)


# The entries that are not placed.

def draw_others(chart, y):
    """Lists the entries that are not placed, each state with its reason; where they end below."""
    drawing, is_first = chart.drawing, True
    for state in STATES[1:]:
        there = chart.net.of(state)
        if not there:
            continue
        if is_first:
            drawing.text(16, y + 18, "Entries that are not placed at the end", 13, font_weight="bold")
            y, is_first = y + 26, False
        drawing.text(16, y + 14, f"{state}: {WHY[state]}", 12, GREY)
        y = draw_list(chart, y + 14, [others_words(entry, chart.net) for entry in there]) + 6
    return y


def draw_list(chart, y, rows):
    """Draws rows of words, and how many are left out; where they end below."""
    for words in rows[:MOST_LISTED]:
        y += 16
        chart.drawing.text(INDENT, y, words, 12)
    if len(rows) > MOST_LISTED:
        y += 16
        chart.drawing.text(INDENT, y, f"and {len(rows) - MOST_LISTED} more", 12, GREY, font_style="italic")
    return y


def others_words(entry, net):
    """An entry that is not placed, with the quantum that could not carry it, if there was one."""
    if entry.quantum is None:
        return entry.words()
    return f"{entry.words()}; quantum {entry.quantum} carried {entry.sum} and had {net.capacity - entry.sum} left"


# The legend.

def entries(chart, stack):
    """The legend's pairs of a swatch and its words."""
    found = []
    if stack:
        found.append((filled(colour_of(0)), "a placed entry, as high as its rate"))
    if chart.net.of(PLACED):
        found.append((sum_swatch if stack else filled(SENT), "the sum of the placed rates"))
    if not all(part.is_first and part.is_last for part in stack):
        found.append((arrow_swatch, "it goes on from the ring's last quantum with quantum 0"))
    if chart.net.peak:
        found.append((peak_swatch, "the greatest sum after any step of the run"))
    return found


def sum_swatch(drawing, x, y):
    """The swatch of the sum."""
    drawing.path([f"M{number(x)} {number(y + 10)}h8v-8h14"], fill="none", stroke=INK)


def arrow_swatch(drawing, x, y):
    """The swatch of an entry that goes on with quantum 0."""
    draw_arrow(drawing, x + 9, y + 6, colour_of(0, 0.42))


def peak_swatch(drawing, x, y):
    """The swatch of the peak."""
    drawing.path([f"M{number(x + 11)} {number(y - 1)}v9"], stroke=INK, stroke_dasharray="2 2")
    drawing.path([f"M{number(x + 7)} {number(y + 9)}h8"], stroke=INK, stroke_width=3)
