"""Whether bytes are the text of a writable value (docs/formats.md, section 7), plainly, for tools/audit-mutations: the form of
its lines, and the ranges of what they tell. It names no line, and does not ask whether numbers fit 32 or 64 bits. It shares
no code with the crates.

Python 3.8 or later, and nothing but its standard library.
"""
import re

import kept_runs
from kept_runs import ANSWER, ASK, DESCHEDULE, KEYS, KILL, MIRROR, PIECE, PLACED, START, STATE, WHOLE
from scenarios import first_false, out_of_range

MOST_BEATS, MOST_BLOCKS, MOST_VISIT = 100000, 16777216, 2 ** 32
FIELDS = {"put": 5, "took": 7, "dropped": 7, "queued": 2, "unqueued": 1, "gone": 1, "readfailed": 6, "believed": 1, "died": 0,
          "returned": 0}  # how many an entry has, if it is of no note
NOTES = ((6,), (7,), (5,), (2, 4), (3,), (5,), (0,), (6,), (7, 10), (10,), (10,), (1,))  # how many a note of each kind has
PLACED_NOTES = (ASK, ANSWER, WHOLE, PIECE, KILL)  # those that name a slot and a visit behind an instance


def run_of(text):
    """The run that a text keeps; None if it is the text of no writable value."""
    try:
        run = kept_runs.read(text)
    except (ValueError, IndexError, TypeError, KeyError):
        return None
    return run if kept_runs.write(run) == text and is_writable(run) else None


def is_writable(run):
    """Whether the parts of a run lie in their ranges and fit one another."""
    plan = dict(zip(KEYS, run.plan))
    return (not out_of_range(plan) and not first_false(plan) and 1 <= run.beats <= MOST_BEATS and has_delays(run)
            and len(run.offsets) == run.plan.cubs + 1 and all(offset <= run.plan.skew for offset in run.offsets)
            and all(is_life(run, cub, life) for cub, life in run.lives.items())
            and all(f.disk < run.disk_count and f.start < f.until <= run.beats for f in run.faults)
            and all(f.bytes >= 1 and f.disk < run.disk_count for f in run.files) and are_orders(run)
            and len(run.journals) == run.viewers + 1 and all(is_entry(run, e) for journal in run.journals for e in journal)
            and all(re.fullmatch("[0-9a-f]{64}", digest) for digest in run.digests)
            and len(run.digests) == sum(order.ask is not None for order in run.orders))


def has_delays(run):
    """Whether the delays are drawn, or fixed and no longer than the plan's."""
    word, *numbers = run.delays
    return len(numbers) == 1 and numbers[0].isdecimal() and str(int(numbers[0])) == numbers[0] and (
        word == "drawn" or (word == "fixed" and 1 <= int(numbers[0]) <= run.plan.delay))


def is_life(run, cub, life):
    """Whether a cub dies in a beat of the run, and returns in a later one, if at all."""
    return cub < run.plan.cubs and life.death < run.beats and (life.back is None or life.death + 2 <= life.back < run.beats)


def are_orders(run):
    """Whether the orders' beats never fall, each start is of the next instance and fits its file, and each stop is of an
    earlier one."""
    last, begun = 0, 0
    for order in run.orders:
        if not last <= order.beat < run.beats:
            return False
        if order.ask is None and order.stop >= begun:
            return False
        if order.ask is not None and not is_ask_of(run, order.ask, begun):
            return False
        last, begun = order.beat, begun + (order.ask is not None)
    return True


def is_ask_of(run, ask, instance):
    """Whether a start is of an instance, and of all blocks of its file."""
    if ask.instance != instance or ask.file >= len(run.files):
        return False
    file = run.files[ask.file]
    return ask.count == -(-file.bytes // run.plan.block) <= MOST_BLOCKS and ask.disk == file.disk


def is_entry(run, e):
    """Whether an entry is of a beat of the run, and what it tells in its range."""
    if min(e.beat, e.reading, *e.fields, 0) < 0 or e.beat >= run.beats:
        return False
    if e.word in ("got", "sent"):
        return len(e.fields) >= 2 and e.fields[1] < len(NOTES) and is_note(run, e.fields[1], e.fields[2:])
    if FIELDS.get(e.word) != len(e.fields):
        return False
    if e.word in ("took", "dropped"):
        return is_tenancy(run, e.fields) and e.fields[5] <= MOST_VISIT and e.fields[6] <= 1
    return is_tenancy(run, e.fields) if e.word == "put" else e.word != "readfailed" or is_place(run, *e.fields[1:3])


def is_tenancy(run, fields):
    """Whether a tenancy has a slot of the plan, and visits in order."""
    return fields[2] < run.plan.slots and fields[3] <= fields[4] <= MOST_VISIT


def is_place(run, slot, visit):
    """Whether a slot is the plan's, and a visit not too late."""
    return slot < run.plan.slots and visit <= MOST_VISIT


def is_note(run, kind, fields):
    """Whether a note has as many fields as its kind, and they lie in their ranges."""
    if len(fields) not in NOTES[kind]:
        return False
    if kind in (STATE, MIRROR):
        return is_tenancy(run, fields) and fields[5] <= MOST_VISIT
    if kind == START:
        return 1 <= fields[2] <= MOST_BLOCKS and fields[4] <= 1
    if kind == DESCHEDULE:
        return fields[1] == 0 if len(fields) == 2 else fields[1] == 1 and is_place(run, *fields[2:])
    if kind == PLACED:
        return is_tenancy(run, fields)
    if kind == ANSWER and fields[6] != (len(fields) > 7):
        return False
    return kind not in PLACED_NOTES or is_place(run, *fields[1:3])
