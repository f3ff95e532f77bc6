"""How the entries of a kept run are found, put in and taken out, for tools/mutations.py.

Python 3.8 or later, and nothing but its standard library.
"""
from kept_runs import KEYS, Entry, link_of, note_of
from scenarios import first_false, out_of_range

STEPS = (-1, 1)


class NoChange(Exception):
    """A run offers no place for a change."""


def pick(rng, items):
    """One of some items."""
    items = list(items)
    if not items:
        raise NoChange
    return rng.choice(items)


def places(run, test):
    """The places, by node and index, of the entries that pass a test."""
    return [(node, at) for node, journal in enumerate(run.journals) for at, e in enumerate(journal) if test(e)]


def entry_at(run, place):
    """The entry at a place."""
    return run.journals[place[0]][place[1]]


def with_fields(run, place, fields):
    """Gives the entry at a place other fields."""
    run.journals[place[0]][place[1]] = entry_at(run, place)._replace(fields=tuple(fields))


def without(run, taken):
    """Takes out the entries at some places."""
    for node, at in sorted(taken, reverse=True):
        del run.journals[node][at]


def wrote(run, node, beat, word, *fields):
    """Puts an entry into a node's journal, behind all of its beat and of lower ones; its place."""
    if not 0 <= beat < run.beats:
        raise NoChange
    journal = run.journals[node]
    at = sum(e.beat <= beat for e in journal)
    journal.insert(at, Entry(beat, run.reading(node, beat), word, tuple(fields)))
    return node, at


def moved(run, place, beat, node=None):
    """Moves the entry at a place to another beat, and maybe to another node."""
    e = entry_at(run, place)
    without(run, [place])
    return wrote(run, place[0] if node is None else node, beat, e.word, *e.fields)


def on_link(run, node, word, link):
    """The places in a node's journal of the notes that were sent, or got, on a link."""
    return [(node, at) for at, e in enumerate(run.journals[node]) if e.word == word and link_of(e) == link]


def pairs(run, *kinds):
    """The places of each note of these kinds (of any, if none is given) that was sent and got: where it was sent, and where
    it was got. Links to a node that returns are left out."""
    links = {link_of(e) for journal in run.journals for e in journal if e.word == "sent"}
    found = []
    for link in sorted(links):
        sender, receiver = run.ends(link)
        if run.life(receiver).back is None:
            found += zip(on_link(run, sender, "sent", link), on_link(run, receiver, "got", link))
    return [pair for pair in found if not kinds or note_of(entry_at(run, pair[0]))[0] in kinds]


def with_note(run, pair, note):
    """Gives what was sent and got another note."""
    for place in pair:
        with_fields(run, place, (link_of(entry_at(run, place)), *note))


def sends(run, link, beat, note):
    """Has a note sent on a link in a beat, behind all else of it, and got as early as those before it on the link allow."""
    sender, receiver = run.ends(link)
    death = run.life(sender).death
    if run.life(receiver).death is not None or (death is not None and beat >= death):
        raise NoChange
    front = sum(entry_at(run, place).beat <= beat for place in on_link(run, sender, "sent", link))
    wrote(run, sender, beat, "sent", link, *note)
    got = on_link(run, receiver, "got", link)
    if front > len(got) or beat + 1 >= run.beats:
        if front < len(got):
            raise NoChange
        return
    journal, now = run.journals[receiver], beat + 1
    at = sum(e.beat < now for e in journal)
    if front and entry_at(run, got[front - 1]).beat >= now:
        at, now = got[front - 1][1] + 1, entry_at(run, got[front - 1]).beat
    journal.insert(at, Entry(now, run.reading(receiver, now), "got", (link, *note)))


def sent_later(run, pair, beats, note_of_beat, link=None):
    """Moves what was sent and got by some beats, with the note that the new beat gives, and maybe to another link."""
    e = entry_at(run, pair[0])
    beat = e.beat + beats
    without(run, pair)
    sends(run, link_of(e) if link is None else link, beat, note_of_beat(beat))


def of_word(*words):
    """Whether an entry has one of these words."""
    return lambda e: e.word in words


def with_plan(run, **numbers):
    """Gives a run other numbers of the plan, if they make one."""
    plan = run.plan._replace(**numbers)
    numbers = dict(zip(KEYS, plan))
    if first_false(numbers) or out_of_range(numbers):
        raise NoChange
    run.plan = plan
