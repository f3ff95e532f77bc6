"""The points of a sweep: the values of each key that is changed, and the scenario at each point."""
import copy
import itertools
import re

from reports import Unfit, parsed
from scenarios import KEYS, MOST_DEATHS

LINKS = ("fixed", "drawn")
NAMES = (*KEYS, "beats", *LINKS, "viewers", "deaths")
MOST_POINTS = 10000
PART = re.compile(r"([0-9]{1,20})(?:\.\.([0-9]{1,20})(?::([0-9]{1,20}))?)?")


class Wrong(Exception):
    """What is wrong with the words, in one line."""


def axis_of(word):
    """The key that a word names, and its values: KEY=5, KEY=1..9, KEY=1..9:2, or several of these with commas."""
    key, _, text = word.partition("=")
    if key not in NAMES:
        raise Wrong(f"'{key}' is no key that can be changed: these are {', '.join(NAMES)}")
    values = []
    for part in text.split(","):
        found = PART.fullmatch(part)
        if not found or found[3] is not None and int(found[3]) == 0:
            raise Wrong(f"'{word}' is not of the form KEY=FROM..TO:STEP")
        first = int(found[1])
        span = range(first, int(found[2] or first) + 1, int(found[3] or 1))
        if (span[-1] - span[0] if span else 0) // span.step >= MOST_POINTS:
            raise Wrong(f"'{word}' has more than {MOST_POINTS} values")
        values.extend(span)
    return key, list(dict.fromkeys(values))


def points_of(words):
    """The points that some words name, each a dict of keys and values: all values of the last key for each one of the
    key before it."""
    axes = [axis_of(word) for word in words]
    keys = [key for key, _ in axes]
    if len(set(keys)) < len(keys):
        raise Wrong("a key stands twice")
    if set(LINKS) <= set(keys):
        raise Wrong("messages are either fixed or drawn, and not both")
    count = 1
    for _, values in axes:
        count *= len(values)
    if count > MOST_POINTS:
        raise Wrong(f"there are {count} points, and {MOST_POINTS} are the most")
    return [dict(zip(keys, values)) for values in itertools.product(*(values for _, values in axes))]


class Base:
    """The scenario that is changed."""

    def __init__(self, content):
        self.value = parsed(content)
        if not (isinstance(self.value, dict) and isinstance(self.value.get("plan"), dict)
                and all(self.is_list(key) for key in ("events", "deaths"))):
            raise Unfit("the scenario is not of its form")

    def is_list(self, key):
        """Whether there is a list of objects under a key; `deaths` may be absent."""
        entries = self.value.get(key, [])
        return isinstance(entries, list) and all(isinstance(entry, dict) for entry in entries)

    def at(self, point):
        """The scenario at a point."""
        made = copy.deepcopy(self.value)
        for key, value in point.items():
            if key in KEYS:
                made["plan"][key] = value
            elif key == "beats":
                made["beats"] = value
            elif key in LINKS:
                made["links"] = {key: value}
        if "viewers" in point:
            made["events"] = with_starts(made.get("events", []), point["viewers"])
        if "deaths" in point:
            made["deaths"] = with_deaths(made, point["deaths"])
        return made


def with_starts(events, number):
    """The events with so many of their starts, taken evenly, and the stops of these: with n of m starts, those whose
    numbers are floor(j m / n), for j from 0 on."""
    starts = sum("start" in event for event in events)
    if number > starts:
        raise Wrong(f"viewers={number}: the scenario starts {starts}")
    kept = {j * starts // number: j for j in range(number)}
    made, instance = [], -1
    for event in events:
        instance += "start" in event
        if "start" in event and instance in kept:
            made.append(event)
        elif "start" not in event and event.get("stop") in kept:
            made.append({**event, "stop": kept[event["stop"]]})
    return made


def with_deaths(scenario, number):
    """So many deaths: the first of those that the scenario lists, and if they are fewer, then of cubs 0, 2, 4 and so
    on, of those that are neither dead nor neighbours of a dead one. Cub 2k of these dies in beat
    floor((k + 1) beats / (m + 1)), with m = floor(cubs / 2), which is how many may die at most.
    """
    found, cubs, beats = scenario.get("deaths", [])[:number], scenario["plan"].get("cubs"), scenario.get("beats")
    if len(found) == number:
        return found
    if not (type(cubs) is type(beats) is int and 1 <= cubs <= 64 and all(type(it.get("cub")) is int for it in found)):
        raise Unfit("the scenario is not of its form, so that no deaths can be placed")
    most = cubs // 2
    for half in range(most):
        near = {(2 * half + step) % cubs for step in (-1, 0, 1)}
        if len(found) < number and not near & {death["cub"] for death in found}:
            found.append({"cub": 2 * half, "beat": (half + 1) * beats // (most + 1)})
    if len(found) < number or number > MOST_DEATHS:
        raise Wrong(f"deaths={number}: {len(found)} can be placed at most, since no two neighbours may die")
    return found


def name_of(point):
    """A point in words, which are those that lead to it."""
    return " ".join(f"{key}={value}" for key, value in point.items())
