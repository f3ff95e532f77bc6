"""Draws the ring of a run at one moment: where the slots are, which cubs are dead, which disks cannot be read, and
which cubs have the records of a viewer's visits.

Nothing of a report says which cub has which record. It is derived from due times: a record of a visit is with the
visit's cub, and a backup of it with the next cub, from `min_lead` before the visit is due, or sooner, until it is due.
"""
import collections
import math

from drawing import DEAD, FAULT, GREY, INK, PALE, Drawing, colour_of, counted, filled, legend, number, seconds

WIDTH, TABLE = 960, 550  # the table of records begins here across
CENTRE, RADIUS = 278, 200
MOST_ARCS = 8  # viewers whose records are drawn as arcs round the ring
OWN, BACKUP, CHIP = 612, 780, 26  # where the records stand across, and how far apart
MOST_CHIPS = 5  # records that are drawn in a row of the table


def tenure(run, viewer):
    """From when on, and until before when, a viewer surely has its slot: it has been put there, is not stopped, and
    plays on. The times are in microseconds."""
    scenario, last = run.scenario, last_of(run, viewer)
    ends = [scenario.end + 1] if last is None else [scenario.due(viewer.slot, last) + 1]
    if viewer.stop is not None:
        ends.append(viewer.stop * scenario.beat)
    return scenario.due(viewer.slot, viewer.first) - scenario.plan["window_b"], min(ends)


def last_of(run, viewer):
    """A viewer's last visit; None if the report does not tell it."""
    if viewer.stop is not None or run.open_from(viewer) is not None:
        return None
    return viewer.first + (viewer.blocks[-1].number if viewer.blocks else -1)


class Moment:
    """A run at a moment, in microseconds: the viewers that have a slot, and the visits whose records are there."""

    def __init__(self, run, now):
        self.run, self.scenario, self.now = run, run.scenario, now
        self.viewers = [it for it in run.placed() if self.has_slot(it)]
        self.records = sorted((run.scenario.due(viewer.slot, visit), viewer.slot, visit, viewer.number)
                              for viewer in self.viewers for visit in self.visits(viewer))

    def has_slot(self, viewer):
        """Whether a viewer surely has its slot."""
        begin, end = tenure(self.run, viewer)
        return begin <= self.now < end

    def visits(self, viewer):
        """The visits of a viewer whose records are there by their due times."""
        scenario, last = self.scenario, last_of(self.run, viewer)
        offset = scenario.due(viewer.slot, 0)
        begin = max(viewer.first, (self.now - offset) // scenario.play + 1)
        end = (self.now + scenario.plan["min_lead"] - offset) // scenario.play
        return range(begin, (end if last is None else min(end, last)) + 1)

    def is_dead(self, cub):
        """Whether a cub is dead."""
        return self.scenario.is_dead(cub, self.now // self.scenario.beat)

    def has_records(self, cub, due):
        """Whether a cub that lives surely has its record of a visit that is due at this time: one that came back takes
        none that is due too soon."""
        back = self.scenario.returns.get(cub)
        return back is None or self.now < back * self.scenario.beat or due >= self.scenario.enters_from(cub)

    def cannot_be_read(self, disk):
        """Whether every read of a disk fails."""
        beat = self.now // self.scenario.beat
        return any(it == disk and begin <= beat < until for it, begin, until in self.scenario.faults)

    def turns(self, slot):
        """How many disks a slot has passed over since its first visit was due, with the part of the way to the next."""
        return (self.now - self.scenario.due(slot, 0)) / self.scenario.play


def ring(run, name, now):
    """The picture of the ring at a moment, as SVG."""
    moment, drawing = Moment(run, now), Drawing(WIDTH)
    title = title_of(moment)
    drawing.head(title, name, moment.scenario.words())
    middle = max(76 + RADIUS + 62, 92 + table_height(moment.scenario) / 2)
    draw_track(moment, drawing, middle)
    draw_cubs(moment, drawing, middle)
    draw_slots(moment, drawing, middle)
    draw_arcs(moment, drawing, middle)
    drawing.text(CENTRE, middle + 2, seconds(now) + " s", 18, text_anchor="middle", font_weight="bold")
    drawing.text(CENTRE, middle + 20, "slots go clockwise", 11, GREY, text_anchor="middle")
    below = max(draw_table(moment, drawing, middle), middle + RADIUS + 62)
    below = legend(drawing, entries(moment), 16, below + 10, WIDTH - 8)
    return drawing.svg(below + 12, f"{name}: {title}")


def title_of(moment):
    """What there is at the moment, in one line."""
    dead = sorted(cub for cub in moment.scenario.deaths if moment.is_dead(cub))
    words = {0: "no cub is dead", 1: f"cub {dead[0] if dead else ''} is dead"}
    return (f"At {seconds(moment.now)} s, {counted(len(moment.viewers), 'viewer has a slot', 'viewers have a slot')}, "
            f"and {words.get(len(dead), f'{len(dead)} cubs are dead')}")


# The ring.

def place(turns, radius, cubs, middle):
    """Where something lies that is so many cubs from cub 0, as its two coordinates."""
    angle = 2 * math.pi * turns / cubs
    return CENTRE + radius * math.sin(angle), middle - radius * math.cos(angle)


def apart(scenario):
    """How far the circles of disks are apart: the second disks of all cubs lie within the first ones, and so on."""
    return min(44, 114 / scenario.plan["disks"])


def lane(scenario, turns):
    """The radius on which the disk with this number lies."""
    return RADIUS - 28 - apart(scenario) * (math.floor(turns / scenario.cubs) % scenario.plan["disks"])


def draw_track(moment, drawing, middle):
    """Draws the circle of cubs, and the disks on circles within it."""
    scenario = moment.scenario
    inside = [lane(scenario, lap * scenario.cubs) - 0.45 * apart(scenario) for lap in range(scenario.plan["disks"])]
    for radius in [RADIUS, *inside]:
        drawing.shape("circle", cx=CENTRE, cy=float(middle), r=float(radius), fill="none", stroke=PALE, stroke_width=2)
    side = 10 if scenario.cubs <= 32 and apart(scenario) > 20 else 5
    for disk in range(scenario.disks):
        x, y = place(disk, lane(scenario, disk), scenario.cubs, middle)
        fill = FAULT if moment.cannot_be_read(disk) else "#fff"
        drawing.box(x - side / 2, y - side / 2, side, side, fill, f"disk {disk}", stroke=GREY)


def draw_cubs(moment, drawing, middle):
    """Draws the cubs with their numbers."""
    cubs = moment.scenario.cubs
    size = 15 if cubs <= 16 else 12 if cubs <= 40 else 9
    for cub in range(cubs):
        x, y = place(cub, RADIUS, cubs, middle)
        is_dead = moment.is_dead(cub)
        drawing.shape("circle", cx=x, cy=y, r=size, fill=DEAD if is_dead else "#fff",
                      stroke=GREY if is_dead else INK, stroke_width=1.5)
        if is_dead:
            drawing.shape("circle", cx=x, cy=y, r=size * 0.65, fill="#fff", fill_opacity="0.85")
        drawing.text(x, y + size * 0.32, str(cub), 12 if size > 9 else 8, GREY if is_dead else INK,
                     text_anchor="middle", font_weight="bold")


def between(scenario):
    """How far a slot is from the next one on the innermost circle."""
    radius = lane(scenario, scenario.disks - 1) - 0.45 * apart(scenario)
    return 2 * math.pi * radius * scenario.plan["disks"] / scenario.plan["slots"]


def shows_free(moment):
    """Whether there is room for free slots, and one is there."""
    slots = moment.scenario.plan["slots"]
    return between(moment.scenario) >= 10 and len(moment.viewers) < slots


def draw_slots(moment, drawing, middle):
    """Draws each slot where it is between two disks, within their circle: in its viewer's colour, or as a small circle
    if it is free. In a crowd the slots have no numbers, and free ones are left out."""
    scenario = moment.scenario
    has = {viewer.slot: viewer.number for viewer in moment.viewers}
    is_crowd = between(scenario) < 20 or apart(scenario) < 36
    for slot in sorted(range(scenario.plan["slots"]), key=lambda slot: slot in has):
        turns = moment.turns(slot)
        x, y = place(turns, lane(scenario, turns) - 0.45 * apart(scenario), scenario.cubs, middle)
        if slot in has:
            drawing.shape("circle", cx=x, cy=y, r=3 if is_crowd else 9, fill=colour_of(has[slot]))
            drawing.text(x, y + 3.5, "" if is_crowd else str(slot), 10, text_anchor="middle", font_weight="bold")
        elif shows_free(moment):
            drawing.shape("circle", cx=x, cy=y, r=2.5, fill="#fff", stroke=GREY)


def draw_arcs(moment, drawing, middle):
    """Draws for each of a few viewers an arc from its slot to the cub of the last visit whose record is there."""
    if len(moment.viewers) > MOST_ARCS:
        return
    for at, viewer in enumerate(moment.viewers):
        visits, cubs = moment.visits(viewer), moment.scenario.cubs
        if not visits:
            continue
        radius = RADIUS + 24 + 5 * at
        begin, end = moment.turns(viewer.slot), visits[-1]
        (x, y), (to_x, to_y) = place(begin, radius, cubs, middle), place(end, radius, cubs, middle)
        is_large = int(end - begin > cubs / 2)
        drawing.path([f"M{number(x)} {number(y)}A{radius} {radius} 0 {is_large} 1 {number(to_x)} {number(to_y)}"],
                     fill="none", stroke=colour_of(viewer.number, 0.55), stroke_width=3, stroke_linecap="round")


# The table of records.

def table_height(scenario):
    """The height of all rows of the table."""
    return scenario.cubs * (24 if scenario.cubs <= 16 else 18 if scenario.cubs <= 32 else 14)


def draw_table(moment, drawing, middle):
    """Draws which cub has which records, beside the ring; where that ends below."""
    scenario = moment.scenario
    own, backup = collections.defaultdict(list), collections.defaultdict(list)
    for due, slot, visit, viewer in moment.records:
        for has, cub in ((own, visit % scenario.cubs), (backup, (visit + 1) % scenario.cubs)):
            if moment.has_records(cub, due):
                has[cub].append((slot, viewer))
    tall = table_height(scenario) // scenario.cubs
    y = middle - table_height(scenario) / 2
    drawing.text(OWN, y, "records by slot", 12, font_weight="bold")
    drawing.text(BACKUP, y, "backups by slot", 12, font_weight="bold")
    for cub in range(scenario.cubs):
        top = y + 8 + cub * tall
        drawing.shape("path", behind=True, d=f"M{TABLE} {number(top)}H{WIDTH - 16}", stroke=PALE)
        drawing.text(TABLE + 4, top + tall / 2 + 4, f"cub {cub}", 11)
        if moment.is_dead(cub):
            drawing.box(OWN, top + 3, WIDTH - 16 - OWN, tall - 6, DEAD)
            continue
        draw_chips(drawing, OWN, top, tall, own[cub], 1)
        draw_chips(drawing, BACKUP, top, tall, backup[cub], 0.3)
    return y + 8 + table_height(scenario)


def draw_chips(drawing, x, top, tall, records, opacity):
    """Draws records as slots' numbers in their viewers' colours, the visits that are due first before the others."""
    for at, (slot, viewer) in enumerate(records[:MOST_CHIPS]):
        drawing.box(x + at * CHIP, top + 2, CHIP - 3, tall - 4, colour_of(viewer), fill_opacity=opacity, rx=3)
        drawing.text(x + at * CHIP + (CHIP - 3) / 2, top + tall / 2 + 3, str(slot), 9, text_anchor="middle")
    if len(records) > MOST_CHIPS:
        drawing.text(x + MOST_CHIPS * CHIP + 1, top + tall / 2 + 4, f"+{len(records) - MOST_CHIPS}", 10, GREY)


def entries(moment):
    """The legend's pairs of a swatch and its words."""
    blue, lead = colour_of(0), seconds(moment.scenario.plan["min_lead"])
    found = [(slot_swatch, "a slot with a viewer, on its way from disk to disk")] if moment.viewers else []
    found += [(free_swatch, "a free slot")] if shows_free(moment) else []
    found.append((disk_swatch, "a disk of the cub beside it"))
    if 1 <= len(moment.viewers) <= MOST_ARCS:
        found.append((arc_swatch, f"how far a viewer's records run ahead: {lead} s"))
    if moment.records:
        found += [(filled(blue), f"a record of a visit that is due within {lead} s, with the visit's cub"),
                  (filled(blue, opacity="0.3"), "its backup, with the next cub")]
    if any(map(moment.is_dead, moment.scenario.deaths)):
        found.append((filled(DEAD), "a dead cub"))
    if any(map(moment.cannot_be_read, range(moment.scenario.disks))):
        found.append((filled(FAULT), "a disk that cannot be read"))
    return found


def slot_swatch(drawing, x, y):
    """The swatch of a slot that has a viewer."""
    drawing.shape("circle", cx=float(x + 11), cy=float(y + 6), r=8, fill=colour_of(0))


def free_swatch(drawing, x, y):
    """The swatch of a slot that is free."""
    drawing.shape("circle", cx=float(x + 11), cy=float(y + 6), r="2.5", fill="#fff", stroke=GREY)


def disk_swatch(drawing, x, y):
    """The swatch of a disk."""
    drawing.box(x + 6, y + 1, 10, 10, "#fff", stroke=GREY)


def arc_swatch(drawing, x, y):
    """The swatch of an arc."""
    drawing.path([f"M{number(x)} {number(y + 9)}q11 -8 22 0"], fill="none", stroke=colour_of(0, 0.55), stroke_width=3)
