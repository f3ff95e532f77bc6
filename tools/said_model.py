"""What `tiger check` says of a scenario, for tools/said_checks.py: section 9 of docs/formats.md, written out here once
more. It shares no code with the crates.

    python3 tools/said_model.py SCENARIO    prints it, for a scenario that breaks no rule but the fourth
"""
import json
import os
import sys

MOST = {"cubs": 64, "play": 10**8, "max_lead": 10**10}  # of the numbers below; of each other one it is the next number
MOST_ELSE = 10**9


def conditions(plan):
    """Each condition of a plan, in order: its two sides, the key on its right side, and the least that this may be."""
    way = plan["delay"] * plan["beat"]
    late = way + plan["skew"]
    rows = [
        (plan["window_b"], "window_a"),
        (plan["window_a"] + plan["skew"] + plan["beat"], "play"),
        (plan["beat"] + way + late, "read_lead"),
        (plan["read_lead"] + late + plan["beat"], "window_b"),
        (plan["window_a"] + 2 * plan["play"] + plan["skew"], "min_lead"),
        (plan["min_lead"] + plan["batch"] * plan["beat"], "max_lead"),
        (plan["max_lead"] + 4 * plan["play"], "cubs"),
        ((plan["cubs"] + 4) * way, "play"),
        (plan["pieces"] * (plan["beat"] + late), "play"),
        (plan["pieces"] + 2, "cubs"),
        (plan["heart"] * plan["beat"] + late, "deadman"),
        (2 * plan["play"] + plan["skew"], "hold"),
    ]
    for number, (left, key) in enumerate(rows, 1):
        right, least = plan[key], left
        if number == 1:
            least += 1
        if number == 7:
            right, least = plan["cubs"] * plan["play"], -(-left // plan["play"])
        yield number, left, right, key, least


def condition_lines(plan):
    """A line for each false condition."""
    for number, left, right, key, least in conditions(plan):
        if left > right or number == 1 and left == right:
            needs = f"{key} {least}" if least <= MOST.get(key, MOST_ELSE) else "more"
            yield f"condition {number} left {left} right {right} needs {needs}"


def stays(scenario, lengths):
    """The beat of each start, that of its stop if it is stopped, and how many blocks it plays."""
    starts = [event for event in scenario["events"] if "start" in event]
    for instance, event in enumerate(starts):
        stops = [stop["beat"] for stop in scenario["events"] if stop.get("stop") == instance]
        yield event["beat"], min(stops, default=None), -(-lengths[event["start"]] // scenario["plan"]["block"])


def viewers(plan, all_stays, beat):
    """How many have started by a beat, and were neither stopped nor can have played to the end by then."""
    return sum(start <= beat and (stop is None or beat < stop) and (beat - start) * plan["beat"] // plan["play"] < blocks
               for start, stop, blocks in all_stays)


def memory(plan, beats, starts):
    """The bound of the bytes that a run keeps, beside those of its files."""
    blocks = min(starts, plan["slots"]) * (beats * plan["beat"] // plan["play"] + 1)
    return (33554432 + 65536 * plan["cubs"] * (plan["disks"] + 1) + 1024 * plan["slots"] + 16384 * starts
            + 1024 * starts * plan["cubs"] + 1024 * plan["cubs"] * (beats // plan["heart"] + 1)
            + (2048 + 1024 * plan["pieces"]) * blocks)


def scenario_lines(scenario, lengths):
    """The lines of a scenario that breaks no rule, by the lengths of its files."""
    plan, beats, there = scenario["plan"], scenario["beats"], list(stays(scenario, lengths))
    yield (f"scenario cubs {plan['cubs']} slots {plan['slots']} starts {len(there)} beats {beats} "
           f"memory {memory(plan, beats, len(there))}")
    window = plan["window_a"] - plan["window_b"]
    if window < plan["beat"]:
        yield f"warning window {window} beat {plan['beat']}"
    for beat, _, _ in there:
        count = viewers(plan, there, beat)
        if count > plan["slots"]:
            yield f"warning viewers {count} slots {plan['slots']} beat {beat}"
            break


def said(scenario, lengths):
    """All lines, as bytes."""
    false = list(condition_lines(scenario["plan"]))
    return "".join(line + "\n" for line in false or scenario_lines(scenario, lengths)).encode()


def main():
    with open(sys.argv[1], encoding="utf-8") as file:
        scenario = json.load(file)
    lengths = [os.path.getsize(line["name"]) for line in scenario["files"]]
    sys.stdout.buffer.write(said(scenario, lengths))


if __name__ == "__main__":
    main()
