"""Breaks one rule of a drawn scenario, mostly by as little as can be."""
import re

from scenarios import (BEHIND, KEYS, MOST_AFTER, MOST_BEATS, MOST_DEATHS, MOST_EVENTS, MOST_FAULTS, MOST_FILES, MOST_PRODUCT,
                       MOST_STARTS, MOST_VISITS, ODD, RANGES, Pairs, Raw, draw_offsets, draw_plan, draw_scenario,
                       out_of_range, some)

RULES = range(1, 14)
EMPTY = "empty"  # a file of no bytes
TOKENS = (*ODD, "1E400", "-1e309", "0e400", "1e-400", "0.1e1", "9" * 19, "9" * 20, "9" * 40, "1.7976931348623159e308",
          "1e308", "-", "+1", "01", "-01", ".5", "1.", "1e", "1e+", "0x1", "1_0", "NaN", "Infinity", "tru", "nul",
          "True", '"\\ud800"', '"\\udc00\\ud800"', '"\\ud83d\\ude00"', '"\\u0000"', '"\\x"', '"\\u12"',
          '"\x01"', '"\x7f"', '"\n"', '"\udcff"', '"\ud800"', "\u2028",
          "[" * 126 + "]" * 126, "[" * 127 + "]" * 127, "[" * 128 + "]" * 128,
          '{"a":' * 126 + "1" + "}" * 126, '{"a":1,"a":2}', "[1,]", "[,1]", '{"a"}', '{"a":}', "{1:1}", "/**/1", "")


def odd(rng):
    """A value that is no whole number, or none that fits."""
    return Raw(rng.choice(ODD))


def put_in(rng, entries, bad):
    """The entries with a bad one among them or in the place of one."""
    at = rng.randint(0, len(entries))
    return entries[:at] + [bad] + entries[at + rng.randint(0, 1):]


def misshapen(rng, entry):
    """An object with a key that is gone, another key, an odd value or no object at all."""
    key = rng.choice(sorted(entry))
    return some(rng, {k: v for k, v in entry.items() if k != key}, {**entry, "more": 1}, {**entry, key: odd(rng)},
                odd(rng), list(entry.values()), {})


def text_broken(rng, text):
    """The text of a scenario that is no JSON any more, or hardly."""
    at = rng.randrange(len(text))
    behind = text + some(rng, "}", ",", "x", "\u00a0", text)
    return some(rng, text[:at], behind, "\ufeff" + text, text.replace('"', "'", 1), text.replace(":", " ", 1),
                text.replace(",", ",,", 1), text.replace("}", ",}", 1), "",
                text.replace("{", "{\f", 1), "[" * 200 + "]" * 200, *[with_token(rng, text)] * 12)


def with_token(rng, text):
    """The text with some token in the place of one of its numbers."""
    number = rng.choice(list(re.finditer(r"\d+", text)) or [re.match("", text)])
    return text[:number.start()] + rng.choice(TOKENS) + text[number.end():]


def keys_broken(rng, scenario):
    """Rule 2: no object, a key that is missing, another key."""
    needed = rng.choice(("plan", "beats", "links", "files", "events"))
    return some(rng, {k: v for k, v in scenario.items() if k != needed}, {**scenario, "seed": 1}, [scenario], odd(rng),
                {**{k: v for k, v in scenario.items() if k != needed}, needed.upper(): scenario[needed]},
                {**scenario, "": 0})


def plan_broken(rng, scenario):
    """Rule 3: a number out of its range, mostly by one, or a plan of another form."""
    plan = dict(scenario["plan"])
    for _ in range(some(rng, 1, 1, 1, 2)):
        at = rng.randrange(len(KEYS))
        low, high = RANGES[at]
        plan[KEYS[at]] = some(rng, Raw(low - 1), high + 1, high + 1, 2**64 - 1, odd(rng))
    gone = rng.choice(KEYS)
    whole = scenario["plan"]
    return {**scenario, "plan": some(rng, plan, plan, plan, plan, {k: v for k, v in whole.items() if k != gone},
                                     {**whole, "seed": 1}, {**plan, "seed": 1}, odd(rng), list(whole.values()))}


def condition_broken(rng, scenario):
    """Rule 4: each of the conditions in turn."""
    return {**scenario, "plan": draw_plan(rng, rng.randint(1, 12))}


def beats_broken(rng, scenario):
    """Rule 5: no beats, too many, or too many for the number of cubs."""
    most = MOST_PRODUCT // scenario["plan"]["cubs"]
    if most >= MOST_BEATS:
        return {**scenario, "beats": some(rng, 0, MOST_BEATS + 1, odd(rng))}
    return {**scenario, "beats": some(rng, 0, MOST_BEATS + 1, odd(rng), most + 1, most + 1, MOST_BEATS)}


def links_broken(rng, scenario):
    """Rule 6."""
    most = scenario["plan"]["delay"]
    return {**scenario, "links": some(rng, {"fixed": 0}, {"fixed": most + 1}, {"fixed": odd(rng)}, {"drawn": odd(rng)},
                                      {"fixed": 1, "drawn": 1}, {"fixed": 1, "more": 1}, {"Fixed": 1}, {}, [1],
                                      odd(rng))}


def offsets_broken(rng, scenario):
    """Rule 7: an offset above the skew, an odd one, a number too few or too many, no list."""
    good = draw_offsets(rng, scenario["plan"])
    above = list(good)
    for _ in range(some(rng, 1, 1, 2)):
        at = some(rng, 0, len(good) - 1, rng.randrange(len(good)))
        above[at] = some(rng, scenario["plan"]["skew"] + 1, 2**64 - 1, odd(rng))
    return {**scenario, "offsets": some(rng, above, above, above, good[:-1], good + [0], above + [0], [], {}, odd(rng))}


def files_broken(rng, scenario):
    """Rule 8: a name too short or too long, a disk that is not there, too many files, none."""
    files, disks = scenario["files"], scenario["plan"]["cubs"] * scenario["plan"]["disks"]
    name = files[0]["name"]
    bad = some(rng, {"name": "", "disk": 0}, {"name": "n" * 201, "disk": 0}, {"name": "\u00e9" * 101, "disk": 0},
               {"name": name, "disk": disks}, {"name": odd(rng), "disk": 0}, misshapen(rng, {"name": name, "disk": 0}))
    full = [{"name": name, "disk": 0}]
    return {**scenario, "files": some(rng, *[put_in(rng, files, bad)] * 4, [], full * (MOST_FILES + 1), {}, odd(rng))}


def events_broken(rng, scenario):
    """Rule 9: a beat past the end or before the last one, a file or an instance that is not there, too many."""
    events, files, beats = scenario["events"], len(scenario["files"]), scenario["beats"]
    start = {"beat": 0, "start": 0}
    last = [start] + [{**event, "beat": beats - 1} for event in events[:3]]
    bad = some(rng, {"beat": beats, "start": 0}, {"beat": 0, "start": files}, {"beat": 0, "stop": 0},
               {"beat": 0, "start": 0, "stop": 0}, {"beat": 0, "stop": MOST_STARTS}, misshapen(rng, start))
    return {**scenario, "events": some(
        rng, *[put_in(rng, events, bad)] * 4, last + [{"beat": beats - 2, "start": 0}] if beats > 1 else {},
        [start, {"beat": 0, "stop": 1}, start], [start] * (MOST_STARTS + 1),
        [start] + [{"beat": 0, "stop": 0}] * MOST_EVENTS, {}, odd(rng))}


def visits_broken(rng, scenario):
    """Rule 10: so many starts and beats that the product is just above its limit."""
    return many_visits(rng, scenario, 1)


def many_visits(rng, scenario, over):
    """The scenario with starts and beats of which the product is at its limit, or `over` rounds above it."""
    plan = scenario["plan"]
    most = min(MOST_BEATS, MOST_PRODUCT // plan["cubs"])
    plays = most * plan["beat"] // plan["play"]
    number = rng.randint(min(MOST_STARTS, MOST_VISITS // (plays + 1) + 1), MOST_STARTS)
    rounds = MOST_VISITS // number - 1 + over
    beats = -(-rounds * plan["play"] // plan["beat"])
    again = {k: v for k, v in scenario.items() if k not in ("deaths", "read_faults")}
    return {**again, "beats": min(most, max(1, beats)), "events": [{"beat": 0, "start": 0}] * number}


def deaths_broken(rng, scenario):
    """Rule 11: a cub, a beat, a number of messages or a return out of its range, a cub twice, two neighbours, too
    many."""
    cubs, beats = scenario["plan"]["cubs"], scenario["beats"]
    cub, beat = rng.randrange(cubs), rng.randrange(beats)
    one, far = {"cub": cub, "beat": beat}, {"cub": (cub + 3) % cubs, "beat": 0}
    near = {"cub": some(rng, cub, (cub + 1) % cubs, (cub - 1) % cubs), "beat": 0}
    bad = some(rng, {**one, "cub": cubs}, {**one, "beat": beats}, misshapen(rng, one), {**one, "later": 1},
               {**one, "after": some(rng, MOST_AFTER + 1, -1, "1", None, 0.5, 2**64)},
               {**one, "back": some(rng, beat + BEHIND - 1, beat, 0, beats, beats, -1, "1", None, beat + 2.5, 2**64)})
    return {**scenario, "deaths": some(
        rng, [one, near], [one, far, near], [{"cub": 0, "beat": 0}, {"cub": cubs - 1, "beat": 0}], [bad], [far, bad],
        [far] * (MOST_DEATHS + 1), {}, odd(rng))}


def faults_broken(rng, scenario):
    """Rule 12: a disk that is not there, no beats, an end past the run's end, too many."""
    disks, beats = scenario["plan"]["cubs"] * scenario["plan"]["disks"], scenario["beats"]
    at = rng.randrange(beats)
    good = {"disk": 0, "from": 0, "until": beats}
    bad = some(rng, {**good, "disk": disks}, {**good, "from": at, "until": at}, {**good, "until": beats + 1},
               {**good, "from": beats}, {"disk": 0, "from": beats, "until": beats + 1}, misshapen(rng, good))
    return {**scenario, "read_faults": some(rng, *[put_in(rng, [good] * rng.randint(0, 3), bad)] * 5,
                                            [good] * (MOST_FAULTS + 1), {}, odd(rng))}


BREAKERS = {2: keys_broken, 3: plan_broken, 4: condition_broken, 5: beats_broken, 6: links_broken, 7: offsets_broken,
            8: files_broken, 9: events_broken, 10: visits_broken, 11: deaths_broken, 12: faults_broken}


def with_empty(rng, scenario):
    """The scenario with a file of no bytes besides, which makes it end at rule 13."""
    return {**scenario, "files": put_in(rng, scenario["files"][:MOST_FILES - 1], {"name": EMPTY, "disk": 0})}


def draw_edge(rng, names):
    """A scenario at a limit that it just keeps, with an empty file, so that it ends before a long run."""
    scenario = draw_scenario(rng, names)
    plan, beats = scenario["plan"], scenario["beats"]
    kind = rng.randrange(8)
    if kind == 0:
        scenario["beats"] = min(MOST_BEATS, MOST_PRODUCT // plan["cubs"])
    if kind == 1:
        scenario = many_visits(rng, scenario, 0)
    if kind == 2:
        scenario["files"] = scenario["files"][:1] * (MOST_FILES - 1)
    if kind == 3:
        scenario["events"] = [{"beat": 0, "start": 0}] + [{"beat": beats - 1, "stop": 0}] * (MOST_EVENTS - 1)
    if kind == 4:
        scenario["read_faults"] = [{"disk": 0, "from": 0, "until": beats}] * MOST_FAULTS
    if kind == 5:
        plan["cubs"], plan["slots"] = 64, some(rng, 1, 4096)
        plan["play"] = max(plan["play"], 68 * plan["delay"] * plan["beat"])
        scenario["plan"] = widened(plan)
        scenario["deaths"] = [{"cub": 2 * i, "beat": beats - 1} for i in range(MOST_DEATHS)]
        scenario.pop("offsets", None)
    if kind == 6:
        scenario["files"] = [{"name": "n" * 200, "disk": 0}, {"name": "\u00e9" * 100, "disk": 0}]
        scenario["events"] = scenario["events"][:1]
        return scenario
    if kind == 7:
        pairs = Pairs(scenario.items())
        pairs.insert(0, ("beats", odd(rng)))
        scenario = pairs
        return twice(rng, scenario)
    return with_empty(rng, scenario)


def widened(plan):
    """The plan with leads and holding time made anew for its play time."""
    least = plan["window_a"] + 2 * plan["play"] + plan["skew"]
    wide = {**plan, "min_lead": least, "max_lead": least + plan["batch"] * plan["beat"],
            "hold": 2 * plan["play"] + plan["skew"]}
    return wide if out_of_range(wide) == 0 else plan


def twice(rng, pairs):
    """An object in which a key stands twice, and counts with its last value."""
    return Pairs([(key, Pairs([("fixed", odd(rng)), *value.items()]) if key == "links" and "fixed" in value else value)
                  for key, value in pairs])
