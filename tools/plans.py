"""The least valid plan for some of its numbers: those that are not given are computed from the plan's conditions, which
docs/protocol.md states, section 2.

Each time that is not given is the least that the conditions allow, but for the window, which is as wide as it may be: a
window that is shorter than a beat may lie between two ticks, and then nobody is put into a slot there.
"""
import re

from meanings import CONDITIONS
from reports import Unfit
from scenarios import KEYS, RANGES, first_false, out_of_range

USUAL = {"cubs": 8, "disks": 1, "pieces": 2, "block": 64, "beat": 10000, "delay": 2, "skew": 0, "batch": 1, "heart": 1}
MEANS = {  # what the plan's numbers mean, in a few words
    "cubs": "machines of the ring", "disks": "disks of each machine", "slots": "slots of the schedule",
    "play": "block play time", "pieces": "mirror pieces of a block", "block": "bytes of a full block",
    "beat": "length of a beat", "delay": "most beats that a message takes", "skew": "most that a clock is ahead",
    "window_a": "how long before its due time a visit's window opens",
    "window_b": "how long before its due time a visit's window closes",
    "read_lead": "how long before it is sent a block is read",
    "min_lead": "how long before its due time a state is forwarded at the latest",
    "max_lead": "how long before its due time a state is forwarded at the earliest",
    "batch": "a beat is a batch beat if this divides it", "heart": "a cub sends a heartbeat if this divides the beat",
    "deadman": "the silence after which a cub is believed dead", "hold": "how long a deschedule is held",
}
USUAL_PLAY = 1000000  # microseconds, or the least that serves if that is more
LEAST_PLAY = RANGES[KEYS.index("play")][0]
MOST_SLOTS = RANGES[KEYS.index("slots")][1]
LEAST_CUBS = 7  # what conditions 5 to 7 ask for together


def longest_way(plan):
    """The longest time that a message is under way."""
    return plan["delay"] * plan["beat"]


def with_early_times(plan):
    """The plan with the times that do not depend on the block play time."""
    beat, skew, way = plan["beat"], plan["skew"], longest_way(plan)
    read_lead = plan.get("read_lead", beat + 2 * way + skew)
    early = {"read_lead": read_lead, "window_b": read_lead + skew + way + beat,
             "deadman": plan["heart"] * beat + way + skew}
    return {**early, **plan}


def least_play(plan):
    """The least block play time with which every condition can hold and the window be a beat long. The plan has its
    early times, and at least seven cubs."""
    beat, skew, way = plan["beat"], plan["skew"], longest_way(plan)
    window = plan["window_b"] + beat
    leads = -(-(window + skew + plan["batch"] * beat) // (plan["cubs"] - LEAST_CUBS + 1))
    return max(LEAST_PLAY, window + skew + beat, leads, (plan["cubs"] + 4) * way, plan["pieces"] * (beat + way + skew))


def widest_window(plan):
    """The largest `window_a` that the block play time and the leads leave room for."""
    play, skew = plan["play"], plan["skew"]
    latest = plan.get("max_lead", (plan["cubs"] - 4) * play) - plan["batch"] * plan["beat"]
    return min(play - skew - plan["beat"], plan.get("min_lead", latest) - 2 * play - skew)


def least_plan(given):
    """The least valid plan with the numbers that are given under the plan's keys."""
    plan = {**USUAL, **given}
    check_ranges(plan)
    if plan["cubs"] < LEAST_CUBS:
        raise Unfit(f"cubs is {plan['cubs']}: conditions 5 to 7 of a plan ask for at least {LEAST_CUBS}")
    plan = with_early_times(plan)
    plan.setdefault("slots", min(MOST_SLOTS, 2 * plan["cubs"] * plan["disks"]))
    check_play(plan, given)
    play, skew = plan["play"], plan["skew"]
    plan.setdefault("window_a", widest_window(plan))
    plan.setdefault("min_lead", plan["window_a"] + 2 * play + skew)
    plan.setdefault("max_lead", plan["min_lead"] + plan["batch"] * plan["beat"])
    plan.setdefault("hold", 2 * play + skew)
    check_ranges(plan)
    check_conditions(plan)
    return {key: plan[key] for key in KEYS}


def check_play(plan, given):
    """Puts the usual block play time if none is given, and sees that a given one is long enough. What it asks for is
    left to the conditions if the window or a lead is given too."""
    least = least_play(plan)
    if "play" not in plan:
        plan["play"] = max(USUAL_PLAY, least)
    elif plan["play"] < least and not {"window_a", "min_lead", "max_lead"} & set(given):
        raise Unfit(f"play is {plan['play']}, and must be at least {least} with the other numbers of the plan")


def check_ranges(plan):
    """Sees that the numbers that are there are in their ranges."""
    usual = {key: low for key, (low, _) in zip(KEYS, RANGES)}
    item = out_of_range({**usual, **plan})
    if item:
        key, (low, high) = KEYS[item - 1], RANGES[item - 1]
        raise Unfit(f"{key} is {plan[key]}, and must be from {low} to {high}")


def check_conditions(plan):
    """Sees that every condition holds; the first that does not is said with its numbers."""
    item = first_false(plan)
    if item:
        left, right, mend = CONDITIONS[item]
        relation = "must be below" if item == 1 else "may be at most"
        sides = [f"{plain(side)} ({with_numbers(side, plan)})" for side in (left, right.split(",")[0])]
        raise Unfit(f"condition {item} of a plan: {sides[0]} {relation} {sides[1]}; to mend it: {plain(mend)}")


def plain(text):
    """A text of the tables without its marks for code."""
    return text.replace("`", "")


def with_numbers(side, plan):
    """A side of a condition with the plan's numbers in the place of its keys."""
    return re.sub(r"`(\w+)`", lambda key: str(plan[key[1]]), side.replace("longest way", str(longest_way(plan))))


def is_narrow(plan):
    """Whether the window is shorter than a beat, so that no tick may ever fall into it."""
    return plan["window_b"] + plan["beat"] > plan["window_a"]
