"""Draws a run over its time: the slots with their viewers and blocks, below them what each cub sends and when it is
dead or a disk of it cannot be read, and at the foot how long viewers waited and how many bytes were sent.

Where there are many slots, viewers or sends the picture is thinned, and says so in a line below its title.
"""
import collections
import math

import foot
from drawing import (DEAD, FAULT, GREY, INK, PALE, PIECES, Drawing, Scale, colour_of, counted, cut, escaped, filled,
                     legend, longest, number, seconds, width_of)
from reports import REASONS

WIDTH, LEFT, RIGHT = 960, 112, 924
TALL, MEDIUM, THIN = 48, 22, 9  # heights of a row: with captions, with words in its bars, and with neither
BAR = {TALL: 20, MEDIUM: 15, THIN: 7}  # the height of the bars in such a row
MOST_TALL, MOST_MEDIUM = 12, 40  # slots with viewers up to which their rows are so
MOST_ROWS, MOST_LANES = 200, 3  # rows of slots, and the slots that a row shows if there are more
MOST_SENDS = 3000  # sends that are drawn in their viewers' colours
HIGH = 24  # the height of the row of all missing blocks
COLUMN = 2  # the points of width in which sends beyond these are one
RED = {"dead": "#8a0f16", "read": "#e0312a", "piece": "#f58a80"}
WORDS = {"dead": "its cub was dead", "read": "its read failed", "piece": "a piece did not come"}
FREE, MERGED = "#f4f5f8", foot.SENT


class Picture:
    """A run that is being drawn: the drawing, the scale of its time, and the notes on what is left out."""

    def __init__(self, run):
        self.run, self.scenario = run, run.scenario
        self.drawing = Drawing(WIDTH)
        self.scale = Scale(LEFT, RIGHT, run.scenario.end)
        self.notes = []
        self.is_thin = self.is_merged = False  # whether rows have no words, and whether sends are drawn as one
        self.labelled = 0  # where the last words at the left of a row stand
        self.bars, self.lanes = {}, (0, 0)  # the top and the height of each viewer's bar, and of the first cub's row
        self.top = self.bottom = 0  # where the rows begin, and where they end
        self.bands = None  # the top of the first cub's band of bytes, if each cub has one


def timeline(run, name):
    """The picture of a run whose scenario has this name, as SVG."""
    return drawn(Picture(run), name, draw_head)


def without_head(run, name):
    """The picture of such a run with no title, and as SVG: a page has the title."""
    picture = Picture(run)
    return picture, drawn(picture, name, lambda *_: draw_notes(picture, 0) + 8)


def drawn(picture, name, head):
    """Draws a run below its head; the whole as SVG."""
    run = picture.run
    rows = slot_rows(picture)
    sends = sends_by_cub(run)
    waits, sent = foot.Waits(run), foot.Bytes(run, sends)
    note_sends(picture, sends)
    foot.note(picture)
    y = heading(picture, head(picture, name), "Slots: who has them, and how each block came")
    y = draw_slots(picture, y, rows)
    y = heading(picture, y, "Cubs: what each one sends, as the report tells it")
    y = draw_cubs(picture, y, sends)
    y = picture.bottom = foot.draw_foot(picture, y, waits, sent)
    y = legend(picture.drawing, entries(picture) + foot.entries(picture, waits, sent), LEFT, y + 34, WIDTH - 8)
    return picture.drawing.svg(y + 12, f"{name}: {totals_of(run)}")


# The head.

def totals_of(run):
    """The report's totals in one sentence."""
    totals = run.totals
    return (f"{counted(totals['starts'], 'viewer')} started, {totals['placed']} placed: "
            f"{counted(totals['whole'], 'block')} whole, {totals['pieces']} in pieces, {totals['missing']} missing")


def draw_head(picture, name):
    """Draws the title, the ring and the notes; where they end below."""
    return draw_notes(picture, picture.drawing.head(totals_of(picture.run), name, picture.scenario.words())) + 14


def draw_notes(picture, y):
    """Draws the notes; where they end below."""
    for note in picture.notes:
        y += 18
        picture.drawing.text(16, y, note, 12, GREY, font_style="italic")
    return y


def heading(picture, y, words):
    """Draws the heading of a part; where it ends below."""
    picture.drawing.text(16, y + 18, words, 13, font_weight="bold")
    return y + 26


def draw_slots(picture, y, rows):
    """Draws the part of the slots; where it ends below."""
    picture.scale.name(picture.drawing, y + 12)
    picture.top = top = y + 18
    y = top + 8
    for row in rows:
        y = row(y)
    y = draw_unplaced(picture, y) + 4
    picture.scale.rule(picture.drawing, top, y)
    return y


# The rows of slots. Each is a function from where it begins to where it ends.

def slot_rows(picture):
    """What draws each row of slots, and notes on those that are left out."""
    placed = collections.defaultdict(list)
    for viewer in picture.run.placed():
        placed[viewer.slot].append(viewer)
    used, slots = sorted(placed), picture.scenario.plan["slots"]
    if len(used) > MOST_ROWS:
        return grouped_rows(picture, placed, used)
    tall = TALL if len(used) <= MOST_TALL else MEDIUM if len(used) <= MOST_MEDIUM else THIN
    if tall != TALL and slots > len(used):
        picture.notes.append(f"{slots - len(used)} of {slots} slots had no viewer, and have no row.")
    if tall == THIN:
        note_thin(picture)
    rows, following = [], 0
    for slot in used + [slots]:
        if slot > following and tall == TALL:
            rows.append(lambda y, first=following, last=slot - 1: draw_free(picture, y, first, last))
        if slot < slots:
            rows.append(lambda y, slot=slot: draw_slot(picture, y, slot, placed[slot], tall))
        following = slot + 1
    return rows


def grouped_rows(picture, placed, used):
    """The rows if there are too many slots for a row each."""
    size = -(-len(used) // MOST_ROWS)
    lanes = min(size, MOST_LANES)
    left = "" if lanes == size else f", and the {lanes} of them with the most missing blocks are drawn"
    picture.notes.append(f"{len(used)} of {picture.scenario.plan['slots']} slots had viewers; "
                         f"each row stands for {size} of them{left}.")
    note_thin(picture)
    groups = [used[at:at + size] for at in range(0, len(used), size)]
    rows = [lambda y, group=group: draw_group(picture, y, group, [placed[slot] for slot in worst(placed, group, lanes)])
            for group in groups]
    missing = missing_by_column(picture)
    return [lambda y: draw_missing(picture, y, missing), *rows] if missing else rows


def worst(placed, slots, number):
    """So many of these slots, in their order: those whose viewers miss the most blocks."""
    missing = {slot: sum(block.kind in REASONS for viewer in placed[slot] for block in viewer.blocks) for slot in slots}
    return sorted(sorted(slots, key=lambda slot: -missing[slot])[:number])


def missing_by_column(picture):
    """How many blocks are missing, for each reason and column of width."""
    return collections.Counter((int(picture.scale.at(block.due) // COLUMN), block.kind)
                               for viewer in picture.run.placed() for block in viewer.blocks if block.kind in REASONS)


def note_thin(picture):
    """Notes that the rows are thin."""
    picture.is_thin = True
    picture.notes.append("The rows are thin: neither a wait for the first block nor a stop is marked in them.")


def draw_label(picture, y, tall, words):
    """Draws the words at the left of a row, if they keep clear of those above."""
    if y + tall / 2 >= picture.labelled + 12:
        picture.labelled = y + tall / 2
        picture.drawing.text(LEFT - 10, y + tall / 2 + 4, words, 11, GREY, text_anchor="end")


def draw_free(picture, y, first, last):
    """A row that stands for slots that no viewer had."""
    slots = f"slot {first}" if first == last else f"slots {first}\u2013{last}"
    draw_label(picture, y, 16, slots)
    picture.drawing.box(LEFT, y, RIGHT - LEFT, 16, FREE)
    picture.drawing.text(LEFT + 6, y + 12, "no viewer", 11, GREY)
    return y + 22


def draw_slot(picture, y, slot, viewers, tall):
    """A row of one slot, with words where it is tall."""
    bar, top = BAR[tall], y + (18 if tall == TALL else 0)
    draw_label(picture, top, bar, f"slot {slot}")
    for viewer in viewers:
        if tall != THIN:
            draw_wait(picture, top + bar + 3, viewer)
        draw_bar(picture, top, bar, viewer)
    if tall == TALL:
        draw_captions(picture, y + 10, viewers)
    return y + tall


def draw_group(picture, y, slots, viewers_of):
    """A row of several slots, each of which has a thin lane."""
    draw_label(picture, y, 6, f"slots {slots[0]}\u2013{slots[-1]}")
    for lane, viewers in enumerate(viewers_of):
        for viewer in viewers:
            draw_bar(picture, y + 2 * lane, 2, viewer)
    return y + 2 * len(viewers_of) + 1


def draw_missing(picture, y, missing):
    """A row of all missing blocks, whether or not their slots are drawn: the more in a column, the higher."""
    columns = collections.Counter()
    for (column, _), count in missing.items():
        columns[column] += count
    most, steps = max(columns.values()), collections.defaultdict(list)
    for column in columns:
        bottom = float(y + HIGH)
        for reason in REASONS:
            high = HIGH * missing[column, reason] / most
            if high:
                steps[reason].append(f"M{column * COLUMN} {number(bottom)}h{COLUMN}v{number(-high)}h{-COLUMN}z")
            bottom -= high
    draw_label(picture, y, HIGH, f"missing, to {most}")
    for reason in REASONS:
        picture.drawing.path(steps[reason], fill=RED[reason])
    return y + HIGH + 6


def draw_captions(picture, y, viewers):
    """Draws the words of a slot's viewers above their bars, each up to where the next viewer has them."""
    scenario, scale = picture.scenario, picture.scale
    names = [f"viewer {viewer.number}" for viewer in viewers]
    begins = [min(scale.at(scenario.due(viewer.slot, viewer.first)), RIGHT - width_of(name, 11))
              for viewer, name in zip(viewers, names)]
    for viewer, name, begin, end in zip(viewers, names, begins, [*(it - 8 for it in begins[1:]), RIGHT]):
        words = cut(f"{name} plays {scenario.files[viewer.file]}", end - begin, 11)
        if len(words) <= len(f"{name} plays "):
            words = longest([name], end - begin, 11)
        picture.drawing.text(begin + 1, y, words, 11)


def draw_wait(picture, y, viewer):
    """Draws the time from a viewer's start to its first block: a circle and a line of dots."""
    scale, scenario = picture.scale, picture.scenario
    begin = scale.at(viewer.asked * scenario.beat)
    end = max(begin, scale.at(min(scenario.end, scenario.due(viewer.slot, viewer.first))))
    colour = colour_of(viewer.number, 0.45)
    picture.drawing.path([f"M{number(begin)} {number(y)}H{number(end)}"], stroke=colour, stroke_dasharray="2 2")
    picture.drawing.shape("circle", cx=float(begin), cy=float(y), r="2.5", fill="#fff", stroke=colour)


# The bar of a viewer, and its blocks.

def alike(blocks, look):
    """The blocks of a viewer as runs of neighbours that look alike."""
    runs = []
    for block in blocks:
        before = runs[-1][-1] if runs else None
        if before and block.number == before.number + 1 and look(block) == look(before):
            runs[-1].append(block)
        else:
            runs.append([block])
    return runs


def draw_bar(picture, y, tall, viewer):
    """Draws the bar of a viewer: its blocks, what the report does not say, and its stop."""
    drawing, scenario, scale = picture.drawing, picture.scenario, picture.scale
    picture.bars[viewer.number] = (y, tall)
    drawing.parts.append(f"<g><title>{escaped(told_of(picture, viewer))}</title>")
    unsaid = picture.run.open_from(viewer)
    if unsaid is not None:
        end = scenario.end if viewer.stop is None else viewer.stop * scenario.beat
        drawing.box(scale.at(unsaid), y, scale.wide(end - unsaid), tall, colour_of(viewer.number), fill_opacity="0.25")
    draw_blocks(picture, y, tall, viewer)
    if tall >= BAR[MEDIUM]:
        draw_words(picture, y, tall, viewer)
    drawing.parts.append("</g>")
    if viewer.stop is not None and tall >= BAR[MEDIUM]:
        draw_stop(drawing, scale.at(viewer.stop * scenario.beat), y)


def draw_blocks(picture, y, tall, viewer):
    """Draws the colours of a viewer's blocks, and the lines between them."""
    scale, play, colour = picture.scale, picture.scenario.play, colour_of(viewer.number)
    steps = collections.defaultdict(list)
    for blocks in alike(viewer.blocks, lambda block: RED.get(block.kind)):
        steps[RED.get(blocks[0].kind, colour)].append(span(picture, y, tall, blocks))
    for blocks in alike(viewer.blocks, lambda block: block.kind):
        if blocks[0].kind == "pieces":
            steps[PIECES].append(span(picture, y, tall, blocks))
    for fill in steps:
        picture.drawing.path(steps[fill], fill=fill)
    if scale.wide(play) >= 5 and tall > 4:
        named = named_blocks(picture, viewer) if tall == BAR[MEDIUM] else ()
        across = {at: "v2m0 11v2" if at in named else f"v{number(tall)}" for at in range(len(viewer.blocks))}
        order = sorted(across, key=lambda at: at in named)
        lines = [f"M{number(scale.at(viewer.blocks[at].due))} {number(y)}{across[at]}" for at in order]
        picture.drawing.path(lines, stroke="#fff")


def span(picture, y, tall, blocks):
    """The steps of a path round neighbouring blocks."""
    begin = picture.scale.at(blocks[0].due)
    wide = min(picture.scale.wide(len(blocks) * picture.scenario.play), RIGHT - begin)
    return f"M{number(begin)} {number(y)}h{number(wide)}v{number(tall)}h{number(-wide)}z"


def told_of(picture, viewer):
    """What a bar says under the pointer."""
    count = collections.Counter(block.kind for block in viewer.blocks)
    missing = sum(count[reason] for reason in REASONS)
    return (f"viewer {viewer.number} plays {picture.scenario.files[viewer.file]} in slot {viewer.slot} from visit "
            f"{viewer.first} on: {count['whole']} whole, {count['pieces']} in pieces, {missing} missing")


def draw_stop(drawing, x, y):
    """Draws the mark of a stop: a dark triangle that points at the bar from above."""
    drawing.path([f"M{number(x - 5)} {number(y - 5)}h10l-5 8z"], fill=INK, stroke="#fff", stroke_width="0.7")


def named_blocks(picture, viewer):
    """Which of a viewer's blocks its number covers: the first whole ones side by side, or else its first ones; none if
    there are too few."""
    room = 1.1 * width_of(f"viewer {viewer.number}", 11) + 4
    covered = math.ceil(room / picture.scale.wide(picture.scenario.play))
    begins = range(len(viewer.blocks) - covered + 1)
    is_whole = [block.kind == "whole" for block in viewer.blocks]
    numbers = [block.number for block in viewer.blocks]
    begin = next((at for at in begins if all(is_whole[at:at + covered])
                  and numbers[at + covered - 1] == numbers[at] + covered - 1), 0)
    return range(begin, begin + covered) if begins else range(0)


def draw_words(picture, y, tall, viewer):
    """Draws what there is room for in each block, and in rows without captions the viewer's number."""
    drawing, scale, each = picture.drawing, picture.scale, picture.scale.wide(picture.scenario.play)
    named = named_blocks(picture, viewer) if tall == BAR[MEDIUM] else range(0)
    if named:
        draw_number(picture, y, tall, viewer, named)
    for block in (block for at, block in enumerate(viewer.blocks) if at not in named):
        words, x = longest(block_words(block), each - 8, 11), scale.at(block.due)
        if block.kind == "pieces" and words:
            room = width_of(words, 11) + 4
            drawing.box(x + (each - room) / 2, y + 3, room, tall - 6, "#fff", rx=3, fill_opacity="0.85")
        fill = "#fff" if block.kind in ("dead", "read") else INK
        drawing.text(x + each / 2, y + tall / 2 + 4, words, 11, fill, text_anchor="middle")


def draw_number(picture, y, tall, viewer, named):
    """Draws a viewer's number across some of its blocks, on white if one of them is not whole."""
    wide = len(named) * picture.scale.wide(picture.scenario.play)
    middle, words = picture.scale.at(viewer.blocks[named[0]].due) + wide / 2, f"viewer {viewer.number}"
    if any(viewer.blocks[at].kind != "whole" for at in named):
        room = 1.1 * width_of(words, 11) + 4
        picture.drawing.box(middle - room / 2, y + 2, room, tall - 4, "#fff", rx=3, fill_opacity="0.85")
    picture.drawing.text(middle, y + 11.5, words, 11, text_anchor="middle", font_weight="bold")


def block_words(block):
    """What may stand in a block, the longest first: its number, and how it came if it is not whole."""
    name = f"block {block.number}"
    if block.kind == "whole":
        return name, str(block.number)
    if block.kind == "pieces":
        return f"{name} in {counted(len(block.sent), 'piece')}", name, str(block.number)
    return f"{name}: {WORDS[block.kind]}", f"{name}: {block.kind}", block.kind


# Viewers without a slot.

def draw_unplaced(picture, y):
    """Draws a row of the viewers that got no slot; where it ends."""
    waiting = [viewer for viewer in picture.run.viewers if viewer.slot is None]
    if not waiting:
        return y
    scenario, scale, drawing = picture.scenario, picture.scale, picture.drawing
    who = f"viewer {waiting[0].number}" if len(waiting) == 1 else f"{len(waiting)} viewers"
    draw_label(picture, y + 4, 24, "no slot")
    drawing.text(LEFT + 6, y + 14, f"{who} got no slot", 11)
    ends = [scenario.end if it.stop is None else it.stop * scenario.beat for it in waiting]
    begins = [it.asked * scenario.beat for it in waiting]
    drawing.path([f"M{number(scale.at(min(begins)))} {number(y + 22)}H{number(scale.at(max(ends)))}"], stroke=GREY,
                 stroke_dasharray="2 2")
    for x in sorted({number(scale.at(begin)) for begin in begins}):
        drawing.shape("circle", cx=x, cy=float(y + 22), r="2.5", fill="#fff", stroke=GREY)
    return y + 34


# The cubs.

def cub_height(cubs):
    """The height of a cub's row."""
    return 18 if cubs <= 16 else 12 if cubs <= 32 else 8


def sends_by_cub(run):
    """What is sent: the cub, the beat, the viewer's number, whether it is a piece, and its bytes."""
    cubs = run.scenario.cubs
    return [((viewer.first + block.number + at + (block.kind == "pieces")) % cubs, beat, viewer.number,
             block.kind == "pieces", (at + 1) * block.length // len(block.sent) - at * block.length // len(block.sent))
            for viewer in run.placed() for block in viewer.blocks for at, beat in enumerate(block.sent)]


def note_sends(picture, sends):
    """Notes if sends are drawn as one."""
    if len(sends) > MOST_SENDS:
        picture.is_merged = True
        picture.notes.append(f"{len(sends)} blocks and pieces were sent: those that a cub sent at nearly the same time "
                             "are drawn as one, in grey.")


def draw_cubs(picture, y, sends):
    """Draws the part of the cubs: what makes them fail, and what they send; where it ends below."""
    scenario, drawing = picture.scenario, picture.drawing
    tall = cub_height(scenario.cubs)
    picture.lanes = (y, tall)
    bottom = y + tall * scenario.cubs
    picture.scale.rule(drawing, y, bottom)
    picture.scale.name(drawing, bottom + 15)
    unsent = unsent_by_cub(picture)
    for cub in range(scenario.cubs):
        draw_label(picture, y + cub * tall, tall, f"cub {cub}")
        drawing.shape("path", behind=True, d=f"M{LEFT} {number(y + (cub + 1) * tall - 0.5)}H{RIGHT}", stroke=PALE)
    taken = taken_by_cub(picture, sends, unsent)
    for fault in scenario.faults:
        cub = fault[0] % scenario.cubs
        draw_fault(picture, y + cub * tall, tall, fault, taken[cub])
    for cub in scenario.deaths:
        draw_death(picture, y + cub * tall, tall, cub, taken[cub])
    if picture.is_merged:
        scale = picture.scale
        draw_merged(picture, y, tall, [(cub, scale.at(beat * scenario.beat)) for cub, beat, *_ in sends], MERGED)
        for red in RED.values():
            draw_merged(picture, y, tall, [(cub, x) for cub, x, colour in unsent if colour == red], red)
    else:
        draw_sends(picture, y, tall, sends)
        for cub, x, colour in unsent:
            drawing.box(x - 2.5, y + cub * tall + 2, 5, tall - 4, "#fff", stroke=colour, stroke_width=1.5)
    return bottom


def unsent_by_cub(picture):
    """The blocks that did not come whole: the cub that they lie with, where they are due across, and a colour."""
    return [((viewer.first + block.number) % picture.scenario.cubs, picture.scale.at(block.due),
             RED.get(block.kind, colour_of(viewer.number, 0.45)))
            for viewer in picture.run.placed() for block in viewer.blocks if block.kind != "whole"]


def taken_by_cub(picture, sends, unsent):
    """Where the row of each cub has a mark across: a send, a block that is not sent, a death, a return or the beginning
    of a read fault."""
    scenario, scale = picture.scenario, picture.scale
    taken = collections.defaultdict(list)
    for cub, x, _ in unsent:
        taken[cub].append(x)
    beats = [] if picture.is_merged else [(cub, beat) for cub, beat, *_ in sends]
    beats += [*scenario.deaths.items(), *scenario.returns.items()]
    beats += [(disk % scenario.cubs, begin) for disk, begin, _ in scenario.faults]
    for cub, beat in beats:
        taken[cub].append(scale.at(beat * scenario.beat))
    return taken


def draw_fault(picture, y, tall, fault, taken):
    """Draws the time in which a disk cannot be read; each disk of a cub has a lane of its row, and there are words
    behind the time if nothing stands there."""
    disk, begin, until = fault
    scenario, scale = picture.scenario, picture.scale
    lane = (tall - 2) / scenario.plan["disks"]
    x, wide = scale.at(begin * scenario.beat), scale.wide((until - begin) * scenario.beat)
    top = y + 1 + disk // scenario.cubs * lane
    picture.drawing.box(x, top, wide, lane, FAULT, f"disk {disk} cannot be read from beat {begin} to beat {until - 1}")
    words, behind = f"disk {disk} cannot be read", x + wide + 6
    room = width_of(words, 11)
    if lane >= 14 and behind + room <= RIGHT and free_place(behind, room, taken) == behind:
        picture.drawing.text(behind, y + tall / 2 + 4, words, 11)
        taken.extend(range(int(behind), int(behind + room), 5))


def draw_death(picture, y, tall, cub, marks):
    """Draws the time in which a cub is dead, with words that keep clear of the marks across its row."""
    scenario, scale, drawing = picture.scenario, picture.scale, picture.drawing
    x, end = map(scale.at, scenario.dead_time(cub))
    drawing.box(x, y + 1, end - x, tall - 2, DEAD, scenario.death(cub))
    sides = [x, end] if cub in scenario.returns else [x]
    drawing.path([f"M{number(side)} {number(y)}v{number(tall)}" for side in sides], stroke=INK, stroke_width=2)
    for words in death_words(scenario, cub):
        room = width_of(words, 11) + 6
        place = free_place(x + 5, room, marks)
        if tall >= 18 and place + room <= RIGHT:
            drawing.box(place, y + 2, room, tall - 4, "#fff", rx=3, fill_opacity="0.9")
            drawing.text(place + room / 2, y + tall / 2 + 4, words, 11, text_anchor="middle")
            break


def death_words(scenario, cub):
    """The words for a cub's death, the longest first."""
    time, back = map(seconds, scenario.dead_time(cub))
    words = [f"dead from {time} s to {back} s" if cub in scenario.returns else f"dead from {time} s on", "dead"]
    if cub in scenario.cuts:
        cut = f"dies at {time} s in the middle of a beat, after {counted(scenario.cuts[cub], 'message')}"
        words.insert(0, f"{cut}; back at {back} s" if cub in scenario.returns else cut)
    return words


def free_place(begin, wide, marks):
    """The first place from `begin` on with so much room between the marks."""
    for mark in sorted(marks):
        if begin - 5 < mark < begin + wide + 5:
            begin = mark + 6
    return begin


def draw_sends(picture, y, tall, sends):
    """Draws each send in its viewer's colour: a piece is half as tall as a whole block."""
    paths = collections.defaultdict(list)
    for cub, beat, viewer, is_piece, _ in sends:
        x = picture.scale.at(beat * picture.scenario.beat)
        high = (tall - 4) / 2 if is_piece else tall - 4
        paths[viewer].append(f"M{number(x)} {number(y + (cub + 1) * tall - 2)}v{number(-high)}")
    for viewer in sorted(paths):
        picture.drawing.path(paths[viewer], stroke=colour_of(viewer, 0.45), stroke_width=3)


def draw_merged(picture, y, tall, marks, fill):
    """Draws pairs of a cub and a place across as columns of some points of width, in one colour."""
    runs = []
    for cub, column in sorted({(cub, int(x // COLUMN)) for cub, x in marks}):
        if runs and runs[-1][0] == cub and runs[-1][2] == column:
            runs[-1][2] = column + 1
        else:
            runs.append([cub, column, column + 1])
    picture.drawing.path([f"M{begin * COLUMN} {number(y + cub * tall + 2)}h{(end - begin) * COLUMN}v{tall - 4}"
                          f"h{(begin - end) * COLUMN}z" for cub, begin, end in runs], fill=fill)


# The legend: an entry for each thing that the picture has.

def entries(picture):
    """The legend's pairs of a swatch and its words."""
    run, drawing = picture.run, picture.drawing
    kinds = collections.Counter(block.kind for viewer in run.viewers for block in viewer.blocks)
    blue = colour_of(0)
    found = [(filled(blue), "a whole block, in its viewer's colour")] if kinds["whole"] else []
    if kinds["pieces"]:
        found.append((filled(blue, PIECES), "a block in pieces, from the cubs behind a dead one"))
    found += [(filled(RED[reason]), f"missing: {WORDS[reason]} ({kinds[reason]})") for reason in REASONS
              if kinds[reason]]
    if any(run.open_from(viewer) is not None for viewer in run.placed()):
        found.append((filled(blue, opacity="0.25"), "too near to the end or to a stop to be in the report"))
    if not picture.is_thin and any(viewer.stop is not None for viewer in run.placed()):
        found.append((lambda drawing, x, y: draw_stop(drawing, x + 11, y + 5), "a viewer is stopped"))
    if run.viewers and not picture.is_thin:
        found.append((waits, "a viewer waits for its first block"))
    found += [(filled(MERGED), "a cub sends blocks or pieces")] if picture.is_merged else send_entries(kinds)
    if run.scenario.deaths:
        found.append((filled(DEAD), "a cub is dead"))
    if run.scenario.faults:
        found.append((filled(FAULT), "a disk cannot be read"))
    return found


def send_entries(kinds):
    """The entries of sends that are drawn one by one; the kinds are those of the blocks."""
    found = [(sends_swatch(12), "a cub sends a whole block")] if kinds["whole"] else []
    if kinds["pieces"]:
        found.append((sends_swatch(6), "a cub sends a piece"))
    if set(kinds) - {"whole"}:
        found.append((unsent_swatch, "a block is due that its cub does not send"))
    return found


def waits(drawing, x, y):
    """The swatch of a viewer that waits."""
    drawing.path([f"M{number(x + 3)} {number(y + 6)}h19"], stroke=GREY, stroke_dasharray="2 2")
    drawing.shape("circle", cx=float(x + 3), cy=float(y + 6), r="2.5", fill="#fff", stroke=GREY)


def unsent_swatch(drawing, x, y):
    """The swatch of a block that its cub does not send."""
    drawing.box(x + 8.5, y, 5, 12, "#fff", stroke=GREY, stroke_width=1.5)


def sends_swatch(tall):
    """The swatch of a send."""
    return lambda drawing, x, y: drawing.path([f"M{number(x + 11)} {number(y + 12)}v-{tall}"],
                                              stroke=colour_of(0, 0.45), stroke_width=3)
