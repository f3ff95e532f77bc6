"""Texts of kept runs that are changed line by line, and how `tiger audit` must end on them, for tools/conformance and
tools/audit-mutations. It shares no code with the crates.

A change is `drop N`, `double N`, `move N M` (line N is taken out, and put in as line M), `change N TEXT`, `put N TEXT`
(as line N), or `front N`, the first N bytes. Lines count from 1, and behind the last line feed stands one more.

Python 3.8 or later, and nothing but its standard library.
"""
import re

from program import Ended, refused

PLACE = re.compile(rb"tiger: at (?:(?:node|order|cub) \d+, line \d+(?:, whose (?:death is missing|neighbour dies too))?"
                   rb"|the tick of cub \d+ in beat \d+(?:, behind line \d+)?)\n")
WHOLE, PIECE = "9", "10"  # the notes of a block and of a piece


def changed(text, change):
    """The bytes of a text with one change."""
    word, rest = change.encode("latin-1").split(b" ", 1)
    if word == b"front":
        return text[:int(rest)]
    lines = text.split(b"\n")
    number, _, behind = rest.partition(b" ")
    at = int(number) - 1
    if word in (b"drop", b"move"):
        line = lines.pop(at)
        if word == b"move":
            lines.insert(int(behind) - 1, line)
    elif word == b"double":
        lines.insert(at, lines[at])
    elif word == b"put":
        lines.insert(at, behind)
    else:
        lines[at] = behind
    return b"\n".join(lines)


def told(lines):
    """Of the split lines of a text, in microseconds and by cub and instance: the deaths, what the clocks showed at returns,
    the stops and the reads that failed."""
    deaths, returns, stops, failed, node, beat = {}, {}, {}, set(), 0, int(lines[1][7])
    for line in lines[3:]:
        node = int(line[1]) if line[0] == "node" else node
        if line[0] == "died":
            deaths.setdefault(node, []).append(int(line[1]) * beat)
        elif line[0] == "returned":
            returns[node] = int(line[2])
        elif line[0] == "gone":
            stops.setdefault(line[3], []).append(int(line[1]) * beat)
        elif line[0] == "readfailed":  # of an instance at a visit: a piece, or the whole block under 0
            failed.add((node, line[3], int(line[5]), int(line[8])))
    return deaths, returns, stops, failed


def settled(lines):
    """Of the visits of the tenancies that a text puts, those that are settled: when each is due, its number, the instance,
    and whether it is the tenancy's first."""
    cubs, disks, slots, play = map(int, lines[1][1:5])
    end = int(lines[2][1]) * int(lines[1][7])
    for _, _, _, instance, _, slot, first, last in (line for line in lines if line[0] == "put"):
        for visit in range(int(first), int(last) + 1):
            due = int(slot) * cubs * disks * play // slots + visit * play
            if due + 2 * play > end:
                break
            yield due, visit, instance, visit == int(first)


def shares(lines):
    """How many visits are settled, and how many of them have each excuse; those of who was stopped in time have no other."""
    cubs, _, _, play, pieces, _, beat, delay, skew, _, _, read_lead, _, most, _, _, deadman, _ = map(int, lines[1][1:])
    takeover = 2 * delay * beat + 3 * skew + deadman + read_lead + 2 * beat + 1
    deaths, returns, stops, failed = told(lines)
    anywhere = {read[1:] for read in failed}

    def is_back(cub, ahead, time):
        return cub in returns and returns[cub] + most + ahead <= time

    def lost(due, visit, instance, piece):
        leaves, cub = due + (piece - 1) * play // pieces, (visit + piece) % cubs
        is_gone = any(d < leaves + beat for d in deaths.get(cub, ())) and not is_back(cub, 3 * play + skew, leaves)
        return (instance, visit, piece) in anywhere or is_gone

    numbers = dict.fromkeys(("settled", "read", "piece", "dead", "stopped"), 0)
    for due, visit, instance, is_first in settled(lines):
        cub = visit % cubs
        dead = () if not is_first and is_back(cub, 6 * play, due) else deaths.get(cub, ())
        numbers["settled"] += 1
        if any(stop < due + play for stop in stops.get(instance, ())):
            numbers["stopped"] += 1
            continue
        numbers["read"] += (cub, instance, visit, 0) in failed
        numbers["dead"] += any(due - takeover < death < due + beat for death in dead)
        numbers["piece"] += any(death + takeover <= due for death in dead) and any(
            lost(due, visit, instance, piece + 1) for piece in range(pieces))
    return numbers


def counts(text):
    """How much there is in a run, as `audit` counts it, by the run's text."""
    lines = [line.split() for line in text.decode("latin-1").splitlines()]
    nodes = [at for at, line in enumerate(lines) if line[0] == "node"]
    entries = [line for line in lines[nodes[0]:] if line[0] not in ("node", "digest", "end")]
    of_viewers = [line for line in lines[nodes[-1]:] if line[0] == "got"]
    numbers = {
        "entries": len(entries),
        "puts": sum(line[0] == "put" for line in entries),
        "stops": sum(line[0] == "gone" for line in entries),
        "deaths": sum(line[0] == "died" for line in entries),
        "blocks": sum(line[4] == WHOLE for line in of_viewers),
        "pieces": sum(line[4] == PIECE for line in of_viewers),
        **shares(lines),
    }
    return " ".join(f"{name} {number}" for name, number in numbers.items())


def answered(answer, text):
    """How `audit` must end on a text, by `yes`, `audit CLAUSE at PLACE` or `journal LINE`; without a place, that aside."""
    if answer == "yes":
        return Ended(0, f"audit yes\n{counts(text)}\n".encode(), b"")
    word, number, *place = answer.split(" ", 2)
    if word == "journal":
        return refused(10, f"journal line {number}")
    return refused(9, f"audit clause {number}" + "".join(f"\ntiger: {words}" for words in place))


def place_of(ended):
    """The place that a call of `audit` names in its second line, in words; none if that has another form."""
    place = PLACE.fullmatch(ended.err.partition(b"\n")[2])
    return place[0].decode()[len("tiger: at "):-1] if ended.status == 9 and place else ""


def without_place(ended):
    """How a call of `audit` ended, without the line of the place, if it has one as it may be."""
    first, feed, _ = ended.err.partition(b"\n")
    return Ended(ended.status, ended.out, first + feed) if place_of(ended) else ended


def cases(path):
    """Each line of a list of cases: its name, the name of its text, its answer and its changes."""
    with open(path, encoding="ascii") as file:
        for line in file:
            name, text, answer, *changes = line.rstrip("\n").split("\t")
            yield name, text, answer, [change.encode().decode("unicode_escape") for change in changes]
