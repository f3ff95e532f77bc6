"""Checks of the command `check` for tools/check-program: what it says of each run of conformance/, and of plans that are
drawn, of which some have false conditions, by said_model.py; and that it refuses what `run` refuses, with its line.

What the model says is compared by hand in the cases of conformance/check.
"""
import json
import os
import random

import program
import said_model
from program import Ended, refused
from tool_checks import EXAMPLES, content

RUNS, MEDIA = os.path.join(program.CASES, "runs"), os.path.join(program.CASES, "media")
DRAWN = 60
# How far a drawn number is from that of the example: by a factor, or by one.
CHANGES = (lambda n, rng: n + 1, lambda n, rng: max(1, n - 1), lambda n, rng: 2 * n, lambda n, rng: max(1, n // 2),
           lambda n, rng: max(1, n * rng.randrange(50, 150) // 100))
MOST = {"cubs": 64, "disks": 8, "slots": 4096, "pieces": 8, "block": 1 << 20, "beat": 10**6, "delay": 16, "skew": 10**6}
LEAST = {"cubs": 3, "play": 10000}


def wanted_of(scenario, lengths):
    """How `check` ends on a scenario that breaks no rule but the fourth."""
    out = said_model.said(scenario, lengths)
    for number, left, right, _, _ in said_model.conditions(scenario["plan"]):
        if left > right or number == 1 and left == right:
            return Ended(5, out, f"tiger: scenario rule 4 item {number} left {left} right {right}\n".encode())
    return Ended(0, out, b"")


def of_runs(tiger):
    """Each run of conformance/."""
    for name in sorted(name for name in os.listdir(RUNS) if "." not in name):
        scenario = json.loads(content(os.path.join(RUNS, name)))
        lengths = [os.path.getsize(os.path.join(MEDIA, line["name"])) for line in scenario["files"]]
        got = program.run([tiger, "check", os.path.join("..", "runs", name)], MEDIA)
        yield f"check of the run {name}", got.differs(wanted_of(scenario, lengths))


def drawn_plan(rng, plan):
    """The plan with some of its numbers changed."""
    changed = dict(plan)
    for key in rng.sample(sorted(plan), rng.randrange(1, 5)):
        number = rng.choice(CHANGES)(changed[key], rng)
        changed[key] = min(MOST.get(key, 10**8), max(LEAST.get(key, 1), number))
    return changed


def of_drawn(tiger, folder):
    """Plans that are the example's but for some numbers."""
    one = json.loads(content(os.path.join(EXAMPLES, "one.json")))
    for seed in range(DRAWN):
        rng = random.Random(seed)
        scenario = dict(one, plan=drawn_plan(rng, one["plan"]), beats=100)
        scenario["events"] = [{"beat": rng.randrange(5) + 5 * at, "start": 0} for at in range(rng.randrange(20))]
        with open(os.path.join(folder, "drawn.json"), "w", encoding="ascii") as file:
            json.dump(scenario, file)
        got = program.run([tiger, "check", "drawn.json"], folder)
        yield f"check of the drawn plan {seed}", got.differs(wanted_of(scenario, [10]))


def of_refusals(tiger, folder, refusals):
    """What `run` refuses for no condition of a plan is refused by `check` in the same way."""
    for name, words, wanted in refusals:
        if len(words) == 3 and words[0] == "run" and wanted.status != 2 and b" rule 4 " not in wanted.err:
            yield f"check of {name}", program.run([tiger, "check", words[1]], folder).differs(wanted)
    for words in ("check", "check one.json 1", "checks one.json", "Check one.json"):
        yield f"the words '{words}'", program.run([tiger, *words.split()], folder).differs(refused(2, "words"))


def all_of_them(tiger, folder, refusals):
    """Each check's name, and what it found. The folder has the examples and their files."""
    yield from of_runs(tiger)
    yield from of_drawn(tiger, folder)
    yield from of_refusals(tiger, folder, refusals)
