"""What a step of a world costs beside an event of the program's run, for runs of one length, of
twice and of four times it.

Python 3.8 or later, and nothing but its standard library.
"""
import json
import os
import resource
import sys
import tempfile

import program

ROUNDS = 3
# The small plan of docs/formats.md, and one for a ring of 64 cubs.
SMALL = {"cubs": 8, "disks": 1, "slots": 16, "play": 1000000, "pieces": 2, "block": 4,
         "beat": 10000, "delay": 2, "skew": 4000, "window_a": 800000, "window_b": 200000,
         "read_lead": 100000, "min_lead": 3000000, "max_lead": 4000000, "batch": 20, "heart": 50,
         "deadman": 1000000, "hold": 3000000}
LARGE = dict(SMALL, cubs=64, disks=2, slots=256, delay=1)
LOADS = ((SMALL, 8000), (LARGE, 500))


class NoCosts(Exception):
    """Why the costs cannot be measured, in one line."""


def scenario_of(plan, beats):
    """A viewer for each cub, and as many beats; each message takes one."""
    starts = [{"beat": beat, "start": 0} for beat in range(plan["cubs"])]
    return json.dumps({"plan": plan, "beats": beats, "links": {"fixed": 1},
                       "files": [{"name": "file", "disk": 0}], "events": starts},
                      separators=(",", ":"))


def used_by(command, text, folder):
    """The least user time in seconds of some runs with this input, and what they wrote."""
    least = float("inf")
    with tempfile.TemporaryFile() as asked:
        asked.write(text.encode())
        for _ in range(ROUNDS):
            asked.seek(0)
            before = resource.getrusage(resource.RUSAGE_CHILDREN).ru_utime
            ran = program.run(command, folder, stdin=asked)
            if ran.status != 0:
                raise NoCosts(f"{command[0]} ends with status {ran.status}")
            least = min(least, resource.getrusage(resource.RUSAGE_CHILDREN).ru_utime - before)
    return least, ran.out.decode(errors="replace")


def measure(stepper, tiger, plan, beats, folder):
    """The events of so many beats, and the user time in microseconds of a step of a world and of an
    event of a run."""
    scenario = scenario_of(plan, beats)
    with open(os.path.join(folder, "scenario"), "w", encoding="utf-8") as file:
        file.write(scenario)
    used, said = used_by([stepper], f"world {scenario}\nplay {beats}\n\n", folder)
    if not said.split() or not said.split()[-1].isdecimal():
        raise NoCosts(f"{stepper} does not say how many events there were")
    events = int(said.split()[-1])
    if events == 0:
        raise NoCosts(f"{stepper} says that there was no event")
    of_run = used_by([tiger, "run", "scenario", "1"], "", folder)[0] if tiger else None
    return events, used * 1e6 / events, of_run and of_run * 1e6 / events


def tell_load(stepper, tiger, plan, beats, folder):
    """Prints what a step costs in so many beats by this plan."""
    events, step, of_run = measure(stepper, tiger, plan, beats, folder)
    beside = f", of a run {of_run:.2f} us, {step / of_run:.1f} times" if of_run else ""
    print(f"{plan['cubs'] * (1 + plan['disks']) + 2} nodes, {beats} beats, {events} events: "
          f"a step of a world {step:.2f} us{beside}", flush=True)


def tell(stepper, tiger):
    """Prints what a step costs on each load, and gives whether it could be measured."""
    tiger = tiger if tiger and os.access(tiger, os.X_OK) else None
    try:
        with tempfile.TemporaryDirectory() as folder:
            with open(os.path.join(folder, "file"), "wb") as file:
                file.write(bytes(64))
            for plan, beats, times in ((*load, times) for load in LOADS for times in (1, 2, 4)):
                tell_load(stepper, tiger, plan, beats * times, folder)
    except NoCosts as why:
        print(f"hostile: the costs cannot be measured: {why}", file=sys.stderr)
        return False
    if tiger is None:
        print("hostile: the program `tiger` is not there, so a step of a world is measured alone")
    return True
