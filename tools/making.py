"""Makes a scenario from some numbers: a plan, files, and viewers, stops, deaths, returns and read faults, all drawn.

All is drawn from one generator that the seed starts, in the order of this file, so a scenario is a function of the
numbers. What is made breaks no rule; numbers for which there is no such scenario are refused in one line.
"""
import json
import os
import random

from plans import least_plan
from reports import Unfit
from scenarios import (BEHIND, KEYS, MOST_BEATS, MOST_DEATHS, MOST_EVENTS, MOST_FAULTS, MOST_FILES, MOST_PRODUCT, MOST_STARTS,
                       MOST_VISITS)

FILE_MOST, FILES_MOST = 16777216, 67108864  # bytes of a file, and of all files together
NAME_MOST = 200  # bytes of a file's name
PATTERN = bytes(range(251))  # of a prime length, so that blocks differ from those beside them
LONGEST_FAULT = 2  # block play times that a read fault lasts at most
MOST_SENT = 8  # messages that a cub which dies in the middle of a beat sends at most in it


def scenario_of(given):
    """The scenario for these numbers, and the length in bytes of each file that it names."""
    plan = least_plan(given.plan)
    if given.files > MOST_FILES:
        raise Unfit(f"{given.files} files, and {MOST_FILES} are the most")
    rng = random.Random(given.seed)
    beats = beats_of(given.seconds, plan)
    blocks = [rng.randint(*given.length) for _ in range(given.files)]
    scenario = {"plan": plan, "beats": beats}
    scenario["links"] = {"fixed": plan["delay"]} if given.links == "fixed" else {"drawn": given.seed}
    if plan["skew"]:
        scenario["offsets"] = [rng.randint(0, plan["skew"]) for _ in range(plan["cubs"] + 1)]
    scenario["files"] = files(given, plan)
    scenario["events"] = events(rng, given, beats, plan)
    scenario["deaths"] = deaths(rng, given.deaths, plan["cubs"], beats)
    scenario["read_faults"] = faults(rng, given.faults, plan, beats)
    cut(rng, given.cuts, scenario["deaths"])
    bring_back(rng, given.returns, scenario["deaths"], beats - 1)
    lengths = [number * plan["block"] for number in blocks]
    check(scenario, lengths)
    return scenario, lengths


def beats_of(seconds, plan):
    """The beats that begin in so many seconds, at least one."""
    return max(1, int(seconds * 1000000 / plan["beat"]))


def files(given, plan):
    """The files, whose first blocks lie on disks that are spread evenly."""
    disks = plan["cubs"] * plan["disks"]
    folder = "" if given.files_to in (None, ".") else given.files_to
    return [{"name": os.path.join(folder, f"file{number}"), "disk": number * disks // given.files}
            for number in range(given.files)]


def events(rng, given, beats, plan):
    """The starts, each in a beat and of a file that are drawn evenly, and the stops, each of a viewer of its own in a
    beat from its start on."""
    until = beats if given.starting is None else min(beats, beats_of(given.starting, plan))
    number = int(given.viewers_per_second * until * plan["beat"] / 1000000)
    if number > MOST_STARTS:
        raise Unfit(f"{number} viewers start, and {MOST_STARTS} are the most: take fewer a second, or fewer seconds")
    if given.stops > number:
        raise Unfit(f"{given.stops} stops of {number} viewers: each viewer is stopped once at most")
    starts = sorted(rng.randrange(until) for _ in range(number))
    stopped = sorted(distinct(rng, number, given.stops))
    found = [(beat, 0, {"beat": beat, "start": rng.randrange(given.files)}) for beat in starts]
    found += [(beat, 1, {"beat": beat, "stop": viewer})
              for viewer, beat in ((viewer, rng.randrange(starts[viewer], beats)) for viewer in stopped)]
    return [event for _, _, event in sorted(found, key=lambda it: it[:2])]


def distinct(rng, below, number):
    """Some different numbers below a bound, each choice as likely as any other."""
    left = list(range(below))
    for at in range(number):
        other = rng.randrange(at, below)
        left[at], left[other] = left[other], left[at]
    return left[:number]


def deaths(rng, number, cubs, beats):
    """So many cubs, no two of them neighbours, each with the beat of its death."""
    most = min(MOST_DEATHS, cubs // 2)
    if number > most:
        raise Unfit(f"{number} deaths: of {cubs} cubs, {most} at most may die, since no two may be neighbours")
    # Each dead cub takes its own place and the next one; what is left between them is drawn.
    first, dead = rng.randrange(cubs), sorted(distinct(rng, cubs - number, number))
    return [{"cub": (first + place + before) % cubs, "beat": rng.randrange(beats)}
            for before, place in enumerate(dead)]


def faults(rng, number, plan, beats):
    """So many read faults, of drawn disks and times."""
    if number > MOST_FAULTS:
        raise Unfit(f"{number} read faults, and {MOST_FAULTS} are the most")
    longest = max(1, LONGEST_FAULT * plan["play"] // plan["beat"])
    begins = [rng.randrange(beats) for _ in range(number)]
    return [{"disk": rng.randrange(plan["cubs"] * plan["disks"]), "from": begin,
             "until": min(beats, begin + rng.randint(1, longest))} for begin in begins]


def cut(rng, number, dying):
    """Has so many of the deaths come in the middle of their beats, each after a few messages."""
    if number > len(dying):
        raise Unfit(f"{number} cuts of {len(dying)} deaths: each of them is a death in the middle of its beat")
    for at in sorted(distinct(rng, len(dying), number)):
        dying[at]["after"] = rng.randint(0, MOST_SENT)


def bring_back(rng, number, dying, last):
    """Has so many of the cubs that die come back, each in a beat that is drawn, up to a last one. They die as early as
    that needs."""
    if number > len(dying):
        raise Unfit(f"{number} returns of {len(dying)} deaths: each of them is of a cub that dies")
    if number and last < BEHIND:
        raise Unfit(f"{number} returns in {last + 1} beats: a cub comes back in beat {BEHIND} at the earliest")
    for at in sorted(distinct(rng, len(dying), number)):
        death = dying[at]
        death["beat"] = min(death["beat"], last - BEHIND)
        death["back"] = rng.randint(death["beat"] + BEHIND, last)


def check(scenario, lengths):
    """Sees that the scenario is within the limits that its plan does not tell."""
    plan, beats = scenario["plan"], scenario["beats"]
    starts = sum("start" in event for event in scenario["events"])
    due = starts * (beats * plan["beat"] // plan["play"] + 1)
    names = [name_length(file["name"]) for file in scenario["files"]]
    for what, number, most in (("beats", beats, MOST_BEATS), ("beats times cubs", beats * plan["cubs"], MOST_PRODUCT),
                               ("events", len(scenario["events"]), MOST_EVENTS),
                               ("blocks that might be due", due, MOST_VISITS),
                               ("bytes of a file", max(lengths), FILE_MOST),
                               ("bytes of all files", sum(lengths), FILES_MOST),
                               ("bytes of a file's name", max(names), NAME_MOST)):
        if number > most:
            raise Unfit(f"{number} {what}, and {most} are the most")


def name_length(name):
    """The bytes of a file's name."""
    try:
        return len(name.encode())
    except UnicodeEncodeError:
        raise Unfit("the folder's name is no UTF-8, and a scenario cannot name it")


def text_of(scenario):
    """The text of a scenario: each key on lines of its own, and each entry of a list."""
    return "{" + ",\n ".join(f"{json.dumps(key)}: {value_text(value)}" for key, value in scenario.items()) + "}\n"


def value_text(value):
    """The text of a value of a scenario."""
    if isinstance(value, list) and value and isinstance(value[0], dict):
        return "[" + ",\n  ".join(map(json.dumps, value)) + "]"
    if isinstance(value, dict) and set(value) == set(KEYS):
        rows = [KEYS[at:at + 6] for at in range(0, len(KEYS), 6)]
        return "{" + ",\n  ".join(", ".join(f"{json.dumps(key)}: {value[key]}" for key in row) for row in rows) + "}"
    return json.dumps(value)


def write_files(scenario, lengths):
    """Writes the files of a scenario; their bytes differ from file to file."""
    for number, (file, length) in enumerate(zip(scenario["files"], lengths)):
        pattern = PATTERN[number:] + PATTERN[:number]
        os.makedirs(os.path.dirname(file["name"]) or ".", exist_ok=True)
        with open(file["name"], "wb") as made:
            made.write((pattern * (length // len(pattern) + 1))[:length])
