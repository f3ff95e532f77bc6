"""Reads a scenario and the report of its run, for the tools that draw a run or list what it tells.

The program has judged the scenario, or has not if the report is a kept one: so what the two say is looked at here as
far as a picture needs it, and `Unfit` says what does not fit.
"""
import json
import re

from drawing import counted, seconds
from scenarios import BEHIND, KEYS, MOST_AFTER, MOST_BEATS, out_of_range

SECOND = 1000000  # microseconds
START = re.compile(r"start (\d{1,9}) file (\d{1,9}) (?:slot (\d{1,9}) first (\d{1,9})|unplaced)")
BLOCK = re.compile(r"block (\d{1,9}) due (\d{1,18}) (?:(whole|pieces) (\d{1,9}) sent (\d{1,9}(?: \d{1,9})*)"
                   r"|missing (dead|read|piece))")
STOP = re.compile(r"stop (\d{1,9}) at (\d{1,9})")
END = re.compile(r"end (\d{1,9}) whole (\d+) pieces (\d+) missing (\d+) bytes (\d+) sha256 ([0-9a-f]{64})")
TOTAL = re.compile(r"total starts (\d+) placed (\d+) whole (\d+) pieces (\d+) missing (\d+)")
REASONS = ("dead", "read", "piece")
TOTALS = ("starts", "placed", "whole", "pieces", "missing")


class Unfit(Exception):
    """Why a scenario and a report cannot be drawn, in one line."""


class Block:
    """A block of the report: its number, when it is due in microseconds, how it came, how many bytes it has (None if it
    is missing) and in which beats it was sent."""

    def __init__(self, number, due, kind, length, sent):
        self.number, self.due, self.kind, self.length, self.sent = number, due, kind, length, sent


class Viewer:
    """What the report says of a start; slot and first visit are None without a slot, the stop is a beat or None. The
    counts are those of the last line: whole, pieces, missing and bytes."""

    def __init__(self, number, file, asked, slot, first):
        self.number, self.file, self.asked, self.slot, self.first = number, file, asked, slot, first
        self.blocks, self.stop, self.counts, self.digest = [], None, None, None


class Scenario:
    """The plan's numbers under their keys, the run's beats and end, and what happens in it. Deaths have their beats by
    cub; the cuts say after how many messages of that beat a cub dies, if it is in the middle of it, and the returns in
    which beat it comes back, if it does."""

    def __init__(self, content):
        value = parsed(content)
        try:
            self.plan = {key: whole(value["plan"][key]) for key in KEYS}
            self.beats = whole(value["beats"])
            self.files = [str(file["name"]) for file in value["files"]]
            self.starts = [(whole(event["beat"]), whole(event["start"])) for event in value["events"]
                           if "start" in event]
            self.deaths = {whole(death["cub"]): whole(death["beat"]) for death in value.get("deaths", [])}
            self.cuts = {death["cub"]: whole(death["after"]) for death in value.get("deaths", []) if "after" in death}
            self.returns = {death["cub"]: whole(death["back"]) for death in value.get("deaths", []) if "back" in death}
            self.faults = [tuple(whole(fault[key]) for key in ("disk", "from", "until"))
                           for fault in value.get("read_faults", [])]
        except (KeyError, TypeError, AttributeError, ValueError):
            raise Unfit("the scenario is not of its form")
        if out_of_range(self.plan) or not 1 <= self.beats <= MOST_BEATS or not self.is_inside():
            raise Unfit("a number of the scenario is out of its range")
        self.cubs, self.play, self.beat = self.plan["cubs"], self.plan["play"], self.plan["beat"]
        self.disks = self.cubs * self.plan["disks"]
        self.end = self.beats * self.beat

    def is_inside(self):
        """Whether what happens names beats, files, cubs and disks that are there."""
        cubs, disks = self.plan["cubs"], self.plan["cubs"] * self.plan["disks"]
        return (all(beat < self.beats and file < len(self.files) for beat, file in self.starts)
                and all(cub < cubs and beat < self.beats for cub, beat in self.deaths.items())
                and all(after <= MOST_AFTER for after in self.cuts.values())
                and all(self.deaths[cub] + BEHIND <= beat < self.beats for cub, beat in self.returns.items())
                and all(disk < disks and first < until <= self.beats for disk, first, until in self.faults))

    def words(self):
        """The ring and the run in a few words."""
        plan = self.plan
        return (f"{self.cubs} cubs with {counted(plan['disks'], 'disk')} each, {counted(plan['slots'], 'slot')}, block "
                f"play time {seconds(self.play)} s, {counted(self.beats, 'beat')} of {seconds(self.beat)} s")

    def death(self, cub):
        """The death of a cub that dies, in words, with its beat, and that of its return."""
        beat, back = self.deaths[cub], self.returns.get(cub)
        if cub not in self.cuts:
            return f"dead from beat {beat} on" if back is None else f"dead from beat {beat} to beat {back - 1}"
        words = f"dies in the middle of beat {beat}, after {counted(self.cuts[cub], 'message')}"
        return words if back is None else f"{words}, and is back from beat {back} on"

    def is_dead(self, cub, beat):
        """Whether a cub is dead in a beat."""
        return cub in self.deaths and self.deaths[cub] <= beat < self.returns.get(cub, self.beats + 1)

    def dead_time(self, cub):
        """When a cub that dies is dead: from a time on, and to another one, that of its return or the run's end."""
        return self.deaths[cub] * self.beat, self.returns.get(cub, self.beats) * self.beat

    def enters_from(self, cub):
        """From which due time on a cub that comes back surely has its records again."""
        plan = self.plan
        return self.returns[cub] * self.beat + 2 * plan["skew"] + plan["max_lead"] + 3 * self.play

    def due(self, slot, visit):
        """When a slot's visit is due, in microseconds."""
        return slot * self.disks * self.play // self.plan["slots"] + visit * self.play


class Run:
    """A scenario, its viewers as the report has them, and the report's totals under their words."""

    def __init__(self, scenario, report):
        self.scenario = scenario
        lines = report.decode("utf-8", "replace").splitlines()
        self.viewers = []
        for number, line in enumerate(lines[:-1], 1):
            if not self.take(line):
                raise Unfit(f"line {number} of the report is not one of this scenario's")
        total = TOTAL.fullmatch(lines[-1]) if lines else None
        if total is None or len(self.viewers) != len(scenario.starts):
            raise Unfit("the report does not end as one of this scenario's does")
        self.totals = dict(zip(TOTALS, map(int, total.groups())))

    def take(self, line):
        """Takes a line of the report; false if it does not fit to the scenario and to the lines before it."""
        start, block, stop = START.fullmatch(line), BLOCK.fullmatch(line), STOP.fullmatch(line)
        viewer = self.viewers[-1] if self.viewers else None
        if start:
            return self.take_start(*map(number_or_none, start.groups()))
        if block and viewer and viewer.slot is not None:
            return self.take_block(viewer, block)
        if stop and viewer and int(stop[1]) == viewer.number and int(stop[2]) < self.scenario.beats:
            viewer.stop = int(stop[2])
            return True
        end = END.fullmatch(line)
        if end and viewer and int(end[1]) == viewer.number:
            viewer.counts, viewer.digest = tuple(map(int, end.groups()[1:5])), end[6]
            return True
        return False

    def take_start(self, number, file, slot, first):
        """Takes a line that begins a viewer."""
        starts = self.scenario.starts
        if number != len(self.viewers) or number >= len(starts) or starts[number][1] != file:
            return False
        if slot is not None and slot >= self.scenario.plan["slots"]:
            return False
        self.viewers.append(Viewer(number, file, starts[number][0], slot, first))
        return True

    def take_block(self, viewer, found):
        """Takes a line of a viewer's block."""
        number, due, kind, length, sent, reason = found.groups()
        beats = [int(beat) for beat in (sent or "").split()]
        block = Block(int(number), int(due), reason or kind, number_or_none(length), beats)
        before = viewer.blocks[-1].number if viewer.blocks else -1
        number_sent = {"whole": 1, "pieces": self.scenario.plan["pieces"]}.get(block.kind, 0)
        fits = (block.number > before and block.due == self.scenario.due(viewer.slot, viewer.first + block.number)
                and block.due < self.scenario.end and len(block.sent) == number_sent
                and all(beat < self.scenario.beats for beat in block.sent))
        viewer.blocks.append(block)
        return fits

    def placed(self):
        """The viewers that have a slot, in the order of slot and first visit."""
        return sorted((it for it in self.viewers if it.slot is not None), key=lambda it: (it.slot, it.first))

    def open_from(self, viewer):
        """From when on the report does not say how a viewer's blocks came, in microseconds; None if it says of all."""
        scenario = self.scenario
        last = viewer.blocks[-1].number if viewer.blocks else -1
        due = scenario.due(viewer.slot, viewer.first + last + 1)
        end = scenario.end if viewer.stop is None else viewer.stop * scenario.beat
        is_told = viewer.stop is None and due + 2 * scenario.play <= scenario.end
        return None if is_told or due >= end else due


def parsed(content):
    """The value of a scenario's bytes."""
    try:
        return json.loads(content)
    except (ValueError, RecursionError):
        raise Unfit("the scenario is no JSON")


def whole(value):
    """A number of the scenario."""
    if type(value) is not int or value < 0:
        raise ValueError
    return value


def number_or_none(digits):
    """The number of some digits; None if there are none."""
    return None if digits is None else int(digits)


def run_of(scenario, report):
    """The run that the bytes of a scenario and of its report tell."""
    return Run(Scenario(scenario), report)
