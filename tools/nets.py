"""Reads the plan of a network's schedule and the lines of its run, for the tools that draw one or explain a refusal.

The program has judged the plan, or has not if the lines are kept ones: so what the two say is looked at here as far as
a picture needs it, and `Unfit` says what does not fit.
"""
import json
import re

from reports import Unfit

NUMBERS = {  # the keys that are numbers, and the least and the most of each; the last two may be missing
    "cubs": (3, 64), "quanta": (1, 1000), "capacity": (1, 10**12), "steps": (1, 100000), "seed": (0, (1 << 64) - 1),
    "renew": (1, 100000)}
NEEDED, OPTIONAL = ("cubs", "quanta", "capacity", "steps", "events"), ("seed", "renew")
OF_PLANS = ("cubs", "quanta", "capacity", "steps")  # keys that such a plan has, and a scenario has not
OF_SCENARIOS = ("plan", "beats", "links", "files")  # keys that a scenario has, and such a plan has not
MOST_BYTES, MOST_EVENTS = 4194304, 4000
PLACED, WAITING, STOPPED, FULL, REFUSED = STATES = ("placed", "waiting", "stopped", "full", "refused")
ENTRY = re.compile(r"entry (\d{1,4}) cub (\d{1,2}) at (\d{1,5}) rate (\d{1,13}) "
                   r"(?:(placed|waiting|stopped)|(full|refused) (\d{1,5}) sum (\d{1,13}))")
PEAK = re.compile(r"peak (\d{1,13}) at (\d{1,5})")


def is_net(content):
    """Whether some bytes are a plan of a network's schedule and no scenario, by their keys."""
    try:
        return has_keys(json.loads(content), OF_PLANS, OF_SCENARIOS)
    except (ValueError, RecursionError):
        return False


def has_keys(value, some, none):
    """Whether a value is an object with some of these keys and none of those."""
    return isinstance(value, dict) and any(key in value for key in some) and not any(key in value for key in none)


class Entry:
    """An entry as its line has it; quantum and sum are None if it is neither full nor refused."""

    def __init__(self, instance, cub, at, rate, state, quantum, total):
        self.instance, self.cub, self.at, self.rate = instance, cub, at, rate
        self.state, self.quantum, self.sum = state, quantum, total

    def words(self):
        """The entry in a few words."""
        return f"entry {self.instance}: rate {self.rate} from quantum {self.at} of cub {self.cub} on"


class Net:
    """The plan's numbers, its entries as the lines have them, and the peak and its quantum."""

    def __init__(self, content, lines):
        self.cubs, self.quanta, self.capacity, asks = plan_of(content)
        self.ring = self.cubs * self.quanta
        *told, last = lines.decode("utf-8", "replace").splitlines() or [""]
        self.entries = [entry_of(number, line) for number, line in enumerate(told, 1)]
        if [(it.instance, it.at, it.rate) for it in self.entries] != asks or not all(map(self.has, self.entries)):
            raise Unfit("the lines are not those of this plan's entries")
        peak = PEAK.fullmatch(last)
        if not peak or int(peak[2]) >= self.ring:
            raise Unfit("the lines do not end with a peak of this plan's ring")
        self.peak, self.peak_at = int(peak[1]), int(peak[2])
        if max(self.sums().values(), default=0) > min(self.peak, self.capacity):
            raise Unfit("the placed rates of a quantum sum to more than the peak or the capacity")

    def has(self, entry):
        """Whether an entry's cub and quantum are those of the ring."""
        return entry.cub == entry.at // self.quanta and (entry.quantum or 0) < self.ring

    def of(self, state):
        """The entries that stand so."""
        return [it for it in self.entries if it.state == state]

    def spans(self, entry):
        """The quanta that an entry takes, as one or two pairs of the first one and the one behind the last."""
        end = entry.at + self.quanta
        return [(entry.at, end)] if end <= self.ring else [(entry.at, self.ring), (0, end - self.ring)]

    def sums(self):
        """What the placed entries take: by each quantum at which that changes, the sum from there on."""
        changes = {}
        for entry in self.of(PLACED):
            for first, end in self.spans(entry):
                changes[first] = changes.get(first, 0) + entry.rate
                changes[end] = changes.get(end, 0) - entry.rate
        total, sums = 0, {}
        for quantum in sorted(changes):
            total += changes[quantum]
            sums[quantum] = total
        return sums


def entry_of(number, line):
    """The entry of a line."""
    found = ENTRY.fullmatch(line)
    if not found:
        raise Unfit(f"line {number} is none of an entry")
    numbers = [None if text is None else int(text) for text in found.group(1, 2, 3, 4, 7, 8)]
    return Entry(*numbers[:4], found[5] or found[6], *numbers[4:])


def plan_of(content):
    """The ring's numbers, and the asks: of each its instance, quantum and rate."""
    try:
        value = json.loads(content)
        numbers = [value[key] for key in ("cubs", "quanta", "capacity")]
        asks = [(it["at"], it["rate"]) for it in value["events"] if "at" in it]
    except (LookupError, TypeError, ValueError, RecursionError):
        raise Unfit("the plan is not of its form")
    ranges = [NUMBERS[key] for key in ("cubs", "quanta", "capacity")]
    if not all(type(it) is int and low <= it <= high for it, (low, high) in zip(numbers, ranges)):
        raise Unfit("a number of the plan is out of its range")
    return (*numbers, [(number, *ask) for number, ask in enumerate(asks)])
