"""Draws scenarios near the edges of what a scenario may say: whole ones, and ones that break a rule.

A scenario is a dict as json.dumps takes it; a Raw in it stands in the text as it is, and Pairs is an object whose keys
may stand twice.
"""
import json
import os

KEYS = ("cubs", "disks", "slots", "play", "pieces", "block", "beat", "delay", "skew", "window_a", "window_b",
        "read_lead", "min_lead", "max_lead", "batch", "heart", "deadman", "hold")
RANGES = ((3, 64), (1, 8), (1, 4096), (10000, 10**8), (1, 8), (1, 1 << 20), (1, 10**6), (1, 16), (0, 10**6), (1, 10**9),
          (1, 10**9), (1, 10**9), (1, 10**9), (1, 10**10), (1, 10**5), (1, 10**5), (1, 10**9), (1, 10**9))
MOST_BEATS, MOST_PRODUCT, MOST_VISITS, MOST_STARTS = 100000, 2000000, 400000, 2000
MOST_FILES, MOST_EVENTS, MOST_DEATHS, MOST_FAULTS, MOST_AFTER = 64, 4000, 32, 1000, 1000
BEHIND = 2  # beats from a death to the earliest return
ODD = ('-1', '-0', '0.0', '1.0', '1e0', '1.5', '18446744073709551616', '"1"', '""', 'null', 'true', '[]', '[1]', '{}')


class Raw(str):
    """A text that stands in the scenario as it is."""


class Pairs(list):
    """An object as a list of its keys and values."""


def text_of(value, rng=None):
    """The text of a scenario. With a generator blanks stand here and there, keys in any order, and some are escaped."""
    if isinstance(value, Raw):
        return str(value)
    if isinstance(value, (dict, Pairs)):
        return object_text(value, rng)
    if isinstance(value, list):
        gap = gap_of(rng)
        return "[" + gap + ("," + gap).join(text_of(v, rng) for v in value) + "]"
    return json.dumps(value, ensure_ascii=not rng or rng.random() < 0.5)


def object_text(value, rng):
    """The text of an object."""
    pairs = list(value.items() if isinstance(value, dict) else value)
    if rng and isinstance(value, dict):
        rng.shuffle(pairs)
    gap = gap_of(rng)
    return "{" + gap + ",".join(f"{key_text(k, rng)}:{gap}{text_of(v, rng)}" for k, v in pairs) + gap + "}"


def key_text(key, rng):
    """The text of a key, now and then with its first letter escaped."""
    if rng and key and rng.random() < 0.02:
        return f'"\\u{ord(key[0]):04x}' + json.dumps(key[1:])[1:]
    return json.dumps(key)


def gap_of(rng):
    """A blank or none."""
    return some(rng, "", "", " ", "\n", "\t\r ") if rng else ""


def some(rng, *choices):
    """One of these."""
    return rng.choice(choices)


def slack(rng, unit):
    """How far a side of a condition is from the other: often not at all."""
    return some(rng, 0, 0, 0, 1, rng.randrange(unit + 1), rng.randrange(4 * unit + 1))


# Plans. Each number is made from those before it, so that the conditions hold, about half of them at equality.

def draw_plan(rng, broken=0):
    """A plan that meets all conditions, or one in which `broken` is the first false one."""
    while True:
        plan = plan_from(rng, broken)
        if plan is not None:
            return plan


def basic(rng, broken):
    """The ring, the beat, the delay and the skew. What is to be broken asks for some of them."""
    cubs = some(rng, 7, 7, 8, 8, 9, 10, 11, 12, 13, 16)
    pieces = some(rng, 1, 2, 3, min(8, cubs - 2), rng.randint(1, min(8, cubs - 2)))
    beat = some(rng, 100, 250, 997, 1000, 1234, 7919, 10000, 10000, 25000)
    delay = some(rng, 1, 1, 2, 2, 3, 5, 16)
    skew = some(rng, 0, 0, 1, rng.randrange(beat), beat, 2 * beat, rng.randrange(5 * beat))
    if broken == 7:
        cubs = 7
    if broken == 8:
        cubs, beat, delay, skew = some(rng, 9, 12, 16, 20), 10000, some(rng, 4, 16), some(rng, 0, 1)
    if broken == 9:
        cubs, pieces, beat, delay, skew = some(rng, 10, 11), 8, 10000, 1, 10000 * some(rng, 5, 9, 20)
    if broken == 10:
        cubs = some(rng, 7, 7, 8, 9)
        pieces = rng.randint(cubs - 1, 8)
    return {"cubs": cubs, "disks": some(rng, 1, 1, 1, 2, 3), "pieces": pieces, "beat": beat, "delay": delay,
            "skew": skew, "block": some(rng, 1, 2, 3, 4, 7, 16, 64, 100)}


def plan_from(rng, broken):
    """A plan by one try; none where the numbers leave no room."""
    p = basic(rng, broken)
    cubs, beat, skew, way = p["cubs"], p["beat"], p["skew"], p["delay"] * p["beat"]
    tight = broken in (8, 9)

    def off(number):
        """What is added to the least value: below zero only where this condition is to be broken."""
        if number == broken:
            return -some(rng, 1, 1, 1, rng.randrange(1, beat))
        return 0 if tight else slack(rng, beat)

    p["read_lead"] = beat + 2 * way + skew + off(3)
    p["window_b"] = p["read_lead"] + skew + way + beat + off(4)
    p["window_a"] = p["window_b"] + (some(rng, 0, 0, -1, -beat) if broken == 1 else 1 + off(1))
    least = {2: p["window_a"] + skew + beat, 8: (cubs + 4) * way, 9: p["pieces"] * (beat + way + skew)}
    bound = max(value for number, value in least.items() if number != broken)
    p["play"] = least[2] + off(2) if broken == 2 else max(10000, bound + (0 if tight else slack(rng, beat)))
    wide = p["play"] - skew - beat
    if broken in (0, 5, 6) and wide > p["window_b"] and rng.random() < 0.9:
        p["window_a"] = some(rng, wide, wide, wide, rng.randint(p["window_b"] + 1, wide))
    if not leads(rng, p, broken, off):
        return None
    per_play = max(1, p["play"] // beat)
    p["heart"] = some(rng, 1, rng.randint(1, per_play), rng.randint(1, 2 * per_play), 2 * per_play)
    p["deadman"] = p["heart"] * beat + way + skew + off(11)
    p["hold"] = 2 * p["play"] + skew + off(12)
    disks = cubs * p["disks"]
    p["slots"] = min(4096, some(rng, 1, disks, 2 * disks, 2 * disks, 2 * disks + 1, 3 * disks - 1, 5 * disks,
                                rng.randint(1, 5 * disks)))
    plan = {key: p[key] for key in KEYS}
    return plan if first_false(plan) == broken and out_of_range(plan) == 0 else None


def leads(rng, p, broken, off):
    """The forwarding leads and the batch; false where there is no room for them."""
    play, beat = p["play"], p["beat"]
    least = p["window_a"] + 2 * play + p["skew"]
    room = (p["cubs"] - 4) * play - least
    over = off(5)
    p["min_lead"] = least + (over if over <= room - beat else 0)
    room = (p["cubs"] - 4) * play - p["min_lead"]
    if room < beat and broken not in (6, 7):
        return False
    most = max(1, min(100000, room // beat))
    p["batch"] = some(rng, 1, min(2, most), most, rng.randint(1, most))
    low, high = p["min_lead"] + p["batch"] * beat, (p["cubs"] - 4) * play
    p["max_lead"] = some(rng, low, high, rng.randint(min(low, high), max(low, high)))
    if broken == 6:
        p["max_lead"] = low + off(6)
    if broken == 7:
        p["max_lead"] = max(low, high + 1) + some(rng, 0, 0, 5)
    return True


def first_false(p):
    """The first condition that is false of a plan; 0 where all hold."""
    cubs, play, beat, skew, way = p["cubs"], p["play"], p["beat"], p["skew"], p["delay"] * p["beat"]
    conditions = (
        (p["window_b"] + 1, p["window_a"]),
        (p["window_a"] + skew + beat, play),
        (beat + 2 * way + skew, p["read_lead"]),
        (p["read_lead"] + skew + way + beat, p["window_b"]),
        (p["window_a"] + 2 * play + skew, p["min_lead"]),
        (p["min_lead"] + p["batch"] * beat, p["max_lead"]),
        (p["max_lead"] + 4 * play, cubs * play),
        ((cubs + 4) * way, play),
        (p["pieces"] * (beat + way + skew), play),
        (p["pieces"] + 2, cubs),
        (p["heart"] * beat + way + skew, p["deadman"]),
        (2 * play + skew, p["hold"]))
    return next((number for number, (left, right) in enumerate(conditions, 1) if left > right), 0)


def out_of_range(plan):
    """The first number of a plan that is out of its range, counted from 1; 0 where none is."""
    return next((item for item, (key, (low, high)) in enumerate(zip(KEYS, RANGES), 1)
                 if not low <= plan[key] <= high), 0)


# Whole scenarios.

def draw_scenario(rng, names, plan=None):
    """A scenario that breaks no rule; `names` are the files that it may name, each with its length."""
    plan = plan or draw_plan(rng)
    beat, disks = plan["beat"], plan["cubs"] * plan["disks"]
    per_play = -(-plan["play"] // beat)
    plays = some(rng, rng.randint(2, 8), rng.randint(8, 16), rng.randint(8, 16), plan["cubs"] + 8)
    beats = min(4000, some(rng, *[plays * per_play] * 12, plays * per_play + 1, rng.randint(1, 3 * per_play),
                           rng.randint(1, 3)))
    scenario = {"plan": plan, "beats": beats}
    scenario["links"] = some(rng, {"fixed": 1}, {"fixed": plan["delay"]}, {"fixed": rng.randint(1, plan["delay"])},
                             {"drawn": some(rng, 0, 1, 2**64 - 1)}, {"drawn": rng.getrandbits(64)},
                             {"drawn": rng.getrandbits(16)})
    if rng.random() < 1 / 3:
        scenario["offsets"] = draw_offsets(rng, plan)
    scenario["files"] = draw_files(rng, names, plan["block"], some(rng, 1, 3, 16, 16, 40, 40), disks,
                                    min(disks, 1 + beats // (2 * per_play)))
    scenario["events"] = draw_events(rng, beats, len(scenario["files"]), per_play)
    if rng.random() < 0.05:
        scenario["events"] = []
    deaths = draw_deaths(rng, plan["cubs"], beats)
    draw_option(rng, scenario, "deaths", deaths)
    draw_option(rng, scenario, "read_faults", draw_faults(rng, disks, beats, rng.randint(1, 6)))
    return scenario


def draw_option(rng, scenario, key, value):
    """Puts the list in a third of the scenarios, an empty one in a tenth, and else none."""
    chance = rng.random()
    if chance < 1 / 3:
        scenario[key] = value
    elif chance < 0.43:
        scenario[key] = []


def draw_offsets(rng, plan):
    """An offset for each clock, of none, the most, or between."""
    return [some(rng, 0, plan["skew"], rng.randint(0, plan["skew"])) for _ in range(plan["cubs"] + 1)]


def draw_files(rng, names, block, blocks, disks, soon):
    """Up to five files, most of them of at most so many blocks and of more than half as many, and on a disk that is
    visited soon: disk d makes its first visits d block play times after the beginning.
    """
    fit = [name for name, length in names if blocks * block < 2 * length <= 2 * blocks * block]
    rest = [name for name, length in names if length <= 40 * block] or [names[0][0]]
    return [{"name": rng.choice(fit if fit and rng.random() < 0.8 else rest),
             "disk": some(rng, 0, rng.randrange(soon), rng.randrange(soon), rng.randrange(soon), disks - 1,
                          rng.randrange(disks))} for _ in range(rng.randint(1, 5))]


def draw_events(rng, beats, files, per_play):
    """Starts in clusters, and stops soon after a start, long after it, and twice."""
    events, beat, started = [], some(rng, 0, 0, rng.randrange(min(beats, 2 * per_play))), 0
    for turn in range(some(rng, 1, rng.randint(2, 12), rng.randint(5, 20), rng.randint(10, 60))):
        beat += turn and some(rng, 0, 0, 0, 0, 1, 1, 2, rng.randint(0, 10), rng.randint(0, per_play))
        if beat >= beats:
            break
        if started and rng.random() < 0.3:
            recent = rng.randrange(max(0, started - 3), started)
            events.append({"beat": beat, "stop": some(rng, recent, recent, rng.randrange(started))})
        else:
            events.append({"beat": beat, "start": rng.randrange(files)})
            started += 1
    return events


def draw_deaths(rng, cubs, beats):
    """Some cubs that are no neighbours, each with a beat; half of them die there after some messages, and half come
    back."""
    dead = []
    for cub in rng.sample(range(cubs), some(rng, 1, 3, 6)):
        if all((cub - other) % cubs not in (1, cubs - 1) for other in dead):
            dead.append(cub)
    last = beats - 1
    drawn = [{"cub": cub, "beat": some(rng, 0, min(1, last), *[rng.randint(0, last) for _ in range(6)]),
              **draw_after(rng)} for cub in dead]
    return [{**death, **draw_back(rng, death["beat"] + BEHIND, last)} for death in drawn]


def draw_after(rng):
    """In half of the deaths, after how many messages it comes: often after few, sometimes after more than there are."""
    if rng.random() < 0.5:
        return {}
    return {"after": some(rng, 0, 0, 1, 1, 2, 3, rng.randint(0, 8), rng.randint(0, 40), MOST_AFTER)}


def draw_back(rng, first, last):
    """In half of the deaths, in which beat from a first one to a last one the cub comes back: often soon."""
    if first > last or rng.random() < 0.5:
        return {}
    soon, later = min(last, first + 50), min(last, first + 200)
    return {"back": some(rng, first, last, rng.randint(first, soon), rng.randint(first, later),
                         rng.randint(first, last), rng.randint(first, last))}


def draw_faults(rng, disks, beats, number):
    """Read faults, some of one beat and some to the end."""
    faults = []
    for _ in range(number):
        start = rng.randrange(beats)
        faults.append({"disk": rng.randrange(disks), "from": start,
                       "until": some(rng, start + 1, beats, rng.randint(start + 1, beats))})
    return faults


def with_dying_disks(rng, scenario):
    """The scenario with disks that die and, in most cases, no cub that does; now and then with another fault of such a
    disk, which ends or lasts as well, and with faults of others."""
    plan, beats = scenario["plan"], scenario["beats"]
    disks = plan["cubs"] * plan["disks"]
    faults = scenario.get("read_faults", [])[:some(rng, 0, 0, 1, 3)]
    for _ in range(some(rng, 1, 2, 2, 3, 3, plan["cubs"])):
        disk = (rng.choice(scenario["files"])["disk"] + rng.randrange(12)) % disks
        faults.append({"disk": disk, "from": draw_disk_death(rng, plan, beats, disk), "until": beats})
        if rng.random() < 0.2:
            faults += [{**fault, "disk": disk} for fault in draw_faults(rng, disks, beats, 1)]
    rng.shuffle(faults)
    is_calm = rng.random() < 0.8
    calm = {key: value for key, value in scenario.items() if not (is_calm and key == "deaths")}
    return {**calm, "read_faults": faults}


def draw_disk_death(rng, plan, beats, disk):
    """The beat from which on a disk is dead: any, or one about the last from which a visit of it can still be split."""
    disks, beat = plan["cubs"] * plan["disks"], plan["beat"]
    turns = beats * beat // (disks * plan["play"]) + 1
    first = rng.randrange(plan["slots"]) * disks * plan["play"] // plan["slots"]
    due = first + (disk + disks * rng.randrange(turns)) * plan["play"]
    last = (due - plan["read_lead"] - plan["skew"] - plan["delay"] * beat) // beat - 1
    near = last + some(rng, 0, 0, 1, 1, -1, 2, -rng.randint(0, plan["skew"] // beat + 1))
    return some(rng, 0, rng.randrange(beats), rng.randrange(beats), *[min(max(near, 0), beats - 1)] * 3)


def draw_media(rng, folder, count):
    """Files of one byte to some thousand, with lengths at and beside whole blocks; their names and lengths, by length."""
    names = []
    for number in range(count):
        block = rng.choice((1, 2, 3, 4, 7, 16, 64, 100))
        length = max(1, block * rng.randint(1, rng.choice((3, 16, 40))) + rng.choice((-1, 0, 0, 1)))
        names.append((f"file{number}", length))
        with open(os.path.join(folder, f"file{number}"), "wb") as file:
            file.write(bytes(rng.getrandbits(8) for _ in range(length)))
    return sorted(names, key=lambda entry: entry[1])
