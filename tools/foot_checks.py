"""Checks of the two rows at the foot of a timeline for tools/check-program: what is drawn is read from the picture by
its own scales, and compared with what the rows of tools/report give."""
import collections
import decimal
import os
import re
import statistics

import foot
import program
import rows
import timeline
from report_checks import content, kept
from reports import REASONS, SECOND, run_of

CASES = os.path.join(program.CASES, "runs")
NEAR = 0.11  # how far a drawn place may be from what it stands for: places have one digit behind the point
TEXT = re.compile(r'<text x="([\d.]+)" y="([\d.]+)"[^>]*>([^<]*)</text>')
LINE = re.compile(r'd="M([\d.]+) ([\d.]+)V([\d.]+)"')  # the line up to a wait
POINT = re.compile(r"M([\d.]+) ([\d.]+)h2(?=[M\"])")  # a wait of a crowd
BAR = re.compile(r"M([\d.]+) ([\d.]+)H([\d.]+)V([\d.]+)H")
WAITS = re.compile(r"(?:median ([\d.]+) s, worst )?([\d.]+) s \(viewer (\d+)\)(?:; (\d+) without one)?")
BYTES = re.compile(r"(\d+) in all; most in a second: (\d+) by cub (\d+), from (\d+) s to (\d+) s")


def part_of(svg, name):
    """The group of a row, and what stands between its heading and the group; nothing if the row is not there."""
    found = re.search(rf'>{name.capitalize()}: [^<]*</text>(.*?)<g id="{name}">(.*?)</g>', svg, re.DOTALL)
    return found.groups() if found else None


def micros(text):
    """The microseconds of some seconds."""
    return int(decimal.Decimal(text) * SECOND)


def answers(run):
    """Each start and wait in microseconds by the rows of viewers; the wait may be None."""
    names = [column[0] for column in rows.VIEWERS]
    for row in rows.viewer_rows(run):
        viewer = dict(zip(names, row))
        yield tuple(None if viewer[it] is None else viewer[it] * run.scenario.beat for it in ("started", "wait"))


# The waits.

def said_of_waits(run):
    """What the words of the row must give: the median, the worst wait and its viewer, and how many have none."""
    waits = [wait for _, wait in answers(run)]
    some = [wait for wait in waits if wait is not None]
    middle = int(statistics.median(some)) if len(some) > 1 else None
    return middle, max(some), waits.index(max(some)), len(waits) - len(some)


def wrong_waits(run, svg):
    """What is wrong with the row of waits; nothing if all is well."""
    if part_of(svg, "waits") is None:
        return "it is not there"
    head, marks = part_of(svg, "waits")
    said = [words for _, _, words in TEXT.findall(head)]
    if all(wait is None for _, wait in answers(run)):
        return f"{said[0]}, and there is no wait" if WAITS.match(said[0]) or LINE.search(marks) else ""
    found = WAITS.fullmatch(said[0])
    given = found and (found[1] and micros(found[1]), micros(found[2]), int(found[3]), int(found[4] or 0))
    if given != said_of_waits(run):
        return f"it says {said[0]} for {said_of_waits(run)}"
    (low, zero), (high, top) = [(micros(words[:-2]), float(y) - 4) for _, y, words in TEXT.findall(head)[1::2]]
    wanted = [(across(run, asked), zero - (zero - top) * wait / high)
              for asked, wait in answers(run) if wait is not None]
    drawn = [(float(x), float(y)) for x, _, y in LINE.findall(marks)]
    if len(wanted) > foot.MOST_MARKS:
        drawn = [(float(x) + 1, float(y)) for x, y in POINT.findall(marks)]
    far = [*unlike(wanted, drawn), *unlike(drawn, wanted)]
    return f"a wait at {far[0]} is drawn or missing" if far or low else ""


def across(run, time):
    """Where a time lies across a picture."""
    return timeline.LEFT + (timeline.RIGHT - timeline.LEFT) * time / run.scenario.end


def unlike(points, others):
    """The points that are at none of the others."""
    by_column = collections.defaultdict(list)
    for x, y in others:
        by_column[round(x)].append((x, y))
    return [(x, y) for x, y in points
            if not any(abs(x - to_x) <= NEAR and abs(y - to_y) <= NEAR for column in (-1, 0, 1)
                       for to_x, to_y in by_column[round(x) + column])]


# The bytes.

def bytes_of(run):
    """The bytes of each cub and second by the rows of blocks. Each byte of a block in pieces is in one of them."""
    sums = collections.Counter()
    for *_, visit, cub, _, how, length, sent, reason in rows.block_rows(run):
        assert (reason in REASONS) == (how == "missing") and visit % run.scenario.cubs == cub
        for at in range(length or 0):
            piece = next(it for it in range(len(sent)) if at < (it + 1) * length // len(sent))
            behind = 0 if how == "whole" else piece + 1
            sums[(cub + behind) % run.scenario.cubs, sent[piece] * run.scenario.beat // SECOND] += 1
    return sums


def wrong_bytes(run, svg):
    """What is wrong with the row of bytes; nothing if all is well."""
    if part_of(svg, "bytes") is None:
        return "it is not there"
    head, marks = part_of(svg, "bytes")
    said, sums = TEXT.findall(head)[0][2], bytes_of(run)
    if not sums:
        return f"{said}, and nothing was sent" if BYTES.match(said) or BAR.search(marks) else ""
    found = BYTES.fullmatch(said)
    most = max(sums.values())
    second, cub = min((second, cub) for (cub, second), sent in sums.items() if sent == most)
    names = [column[0] for column in rows.VIEWERS]
    wanted = [sum(row[names.index("bytes")] for row in rows.viewer_rows(run)), most, cub, second, second + 1]
    if not found or list(map(int, found.groups())) != wanted:
        return f"it says {said} for {wanted}"
    bars = [tuple(map(float, bar)) for bar in BAR.findall(marks)]
    for name, bottom, high, its in bands(run, marks, sums, cub):
        columns = tops(run, svg, [bar for bar in bars if abs(bar[1] - bottom) <= NEAR], bottom)
        full = max(its.values()) if high == foot.RING else most
        far = next((at for at in {*its, *columns}
                    if abs(columns.get(at, 0) - high * its.get(at, 0) / full) > 2 * NEAR), None)
        if far is not None:
            return f"the bar {far} of {name} is {columns.get(far, 0)} high for {its.get(far, 0)} bytes of {full}"
    return ""


def bands(run, marks, sums, busiest):
    """Each band that must be there: its name, its lower side, the height of its highest bar, and the bytes by bar."""
    labels = [(words, float(y)) for _, y, words in TEXT.findall(marks)]
    step = step_of(run)
    if run.scenario.cubs <= foot.MOST_BANDS:
        for cub in range(run.scenario.cubs):
            its = {second: sent for (of, second), sent in sums.items() if of == cub}
            yield f"cub {cub}", dict(labels)[f"cub {cub}"] + 2, foot.BAR, by_bar(its, step)
        return
    ring = collections.Counter()
    for (_, second), sent in sums.items():
        ring[second] += sent
    zeros = [y - 4 for words, y in labels if words == "0"]
    its = {second: sent for (cub, second), sent in sums.items() if cub == busiest}
    yield "the ring", zeros[0], foot.RING, by_bar(ring, step)
    yield f"cub {busiest}", zeros[1], foot.RING, by_bar(its, step)


def step_of(run):
    """The seconds of a bar: the least of 1, 2, 5, 10 and so on by which bars have two points of width."""
    end = run.scenario.end / SECOND
    least = min(end, 2 * end / (timeline.RIGHT - timeline.LEFT))
    return next(step for step in (1, 2, 5, 10, 20, 50, 100, 200, 500, 1000) if step >= least)


def by_bar(its, step):
    """The most bytes of a second of each bar."""
    bars = {second // step for second in its}
    return {bar: max(sent for second, sent in its.items() if second // step == bar) for bar in bars}


def tops(run, svg, bars, bottom):
    """How high the bars are that are drawn over the middle of the time of each bar."""
    step, found = step_of(run) * SECOND, {}
    assert (step == SECOND) == ("A bar of bytes stands for" not in svg)
    for at in range(-(-run.scenario.end // step)):
        middle = (across(run, at * step) + across(run, min(run.scenario.end, (at + 1) * step))) / 2
        over = [bottom - top for begin, _, end, top in bars if begin <= middle <= end]
        if over:
            found[at] = over[0] if len(over) == 1 else -1
    return found


# All of them.

def cases():
    """The name and the run of each case of conformance/ that has a report."""
    for file in sorted(os.listdir(CASES)):
        if file.endswith(".stdout"):
            paths = [os.path.join(CASES, name) for name in (file[:-len(".stdout")], file)]
            scenario, report = (content(path) for path in paths)
            if report.rpartition(b"\ntotal ")[1] or report.startswith(b"total "):
                yield file[:-len(".stdout")], run_of(scenario, report)


def long_run():
    """The run of an example that goes on for so long that a bar stands for several seconds."""
    scenario = content("six-viewers.json").replace(b'"beats": 1400', b'"beats": 100000')
    return run_of(scenario, content("six-viewers.stdout"))


def all_of_them():
    """Each check's name, and what it found; nothing if all is well."""
    for name, run in [*kept(), ("a long run", long_run())]:
        svg = timeline.timeline(run, name)
        yield f"the waits in the picture of {name}", wrong_waits(run, svg)
        yield f"the bytes in the picture of {name}", wrong_bytes(run, svg)
    drawn = [(name, run, timeline.timeline(run, name)) for name, run in cases()]
    for what, wrong in (("waits", wrong_waits), ("bytes", wrong_bytes)):
        found = ((name, wrong(run, svg)) for name, run, svg in drawn)
        first = next((f"{name}: {difference}" for name, difference in found if difference), "")
        yield f"the {what} in the pictures of {len(drawn)} cases", first if drawn else "there are none"
