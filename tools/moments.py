"""The moments of a kept run, for tools/clauses.py: the order of all its entries, and what stands before each of them.

Python 3.8 or later, and nothing but its standard library.
"""
from kept_runs import record_of, tenancy_of


def true_time(run, beat):
    """The true time at which a beat begins."""
    return beat * run.plan.beat


def due(run, slot, visit):
    """When a visit of a slot is due."""
    return slot * run.disk_count * run.plan.play // run.plan.slots + visit * run.plan.play


def in_window(run, reading, slot, visit):
    """Whether a visit is in the window at a reading."""
    return reading + run.plan.window_b < due(run, slot, visit) <= reading + run.plan.window_a


def log_of(run):
    """All entries, each with its node: by beat, then by node, then by place in the journal."""
    entries = [(node, e) for node, journal in enumerate(run.journals) for e in journal]
    return sorted(entries, key=lambda x: (x[1].beat, x[0]))  # (which keeps the order of equal ones)


class Moment:
    """What stands at a moment: the tenancy of each slot, the stops, and by node the entries and the records so far; who has
    died, who believes whom dead, who was put, and the beat of the last entry."""

    def __init__(self, run):
        self.holder, self.stops, self.beat = {}, [], 0
        self.journal, self.records = [[] for _ in run.journals], [[] for _ in run.journals]
        self.dead, self.believed, self.put = set(), set(), set()

    def take(self, node, e):
        """Goes on to the moment after an entry of a node."""
        if e.word == "put":
            self.take_put(tenancy_of(e.fields))
        elif e.word == "gone":
            self.holder = {slot: t for slot, t in self.holder.items() if t.instance != e.fields[0]}
            self.stops.append((e.fields[0], e.beat))
        elif e.word == "took":
            self.records[node].append(record_of(e))
        elif e.word == "dropped":
            self.records[node] = [r for r in self.records[node] if r != record_of(e)]
        elif e.word in ("died", "returned"):
            self.records[node] = []
        elif e.word == "believed":
            self.believed.add((node, e.fields[0]))
        if e.word == "died":
            self.dead.add(node)
        self.journal[node].append(e)
        self.beat = e.beat

    def take_put(self, t):
        """An instance that is put has its slot, unless it was stopped before."""
        if all(v != t.instance for v, _ in self.stops):
            self.holder[t.slot] = t
        self.put.add(t.instance)


def moments(run):
    """Each entry in its order, with its node, and behind the moment before it."""
    moment = Moment(run)
    for node, e in log_of(run):
        yield moment, node, e
        moment.take(node, e)
