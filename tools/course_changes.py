"""Changes of kept runs that are to make the clauses 1 to 3 of an audit false, for tools/mutations.py: of what is carried,
of beats, readings and deaths, and of what the controller does.

Python 3.8 or later, and nothing but its standard library.
"""
from changing_runs import (STEPS, NoChange, moved, entry_at, of_word, on_link, pairs, pick, places, sends, with_fields,
                           with_note, without, wrote)
from kept_runs import PLACED, START, Life, Order, has_note, link_of, note_of, tenancy_of
from moments import due


def is_got(e):
    """Whether an entry gets a note."""
    return e.word == "got"


# 1: carried

def loses_got(rng, run):
    """A note is sent and not got."""
    without(run, [pick(rng, places(run, is_got))])


def loses_sent(rng, run):
    """A note is got and was not sent."""
    without(run, [pick(rng, pairs(run))[0]])


def gets_other(rng, run):
    """A note is got that differs from what was sent in one number."""
    place = pick(rng, places(run, lambda e: is_got(e) and len(e.fields) > 2))
    fields = list(entry_at(run, place).fields)
    at = rng.randrange(2, len(fields))
    fields[at] = fields[at] + 1
    with_fields(run, place, fields)


def gets_in_beat(rng, run):
    """A note is got in the beat in which it was sent, or one beat later than the delay allows, or just in time."""
    sent, got = pick(rng, pairs(run))
    moved(run, got, entry_at(run, sent).beat + rng.choice((0, run.plan.delay, run.plan.delay + 1)))


def gets_twice(rng, run):
    """A note is got twice."""
    node, at = pick(rng, places(run, is_got))
    run.journals[node].insert(at, run.journals[node][at])


def gets_in_wrong_order(rng, run):
    """Two notes of one link are got in the wrong order."""
    node, at = pick(rng, places(run, is_got))
    after = [place for place in on_link(run, node, "got", link_of(run.journals[node][at])) if place[1] > at][:1]
    other = pick(rng, after)
    fields = entry_at(run, (node, at)).fields
    with_fields(run, (node, at), entry_at(run, other).fields)
    with_fields(run, other, fields)


def gets_elsewhere(rng, run):
    """A note is got, or sent, on the link beside its own."""
    place = pick(rng, places(run, of_word("got", "sent")))
    fields = entry_at(run, place).fields
    with_fields(run, place, (fields[0] + 1, *fields[1:]))


def goes_on(rng, run):
    """The run has some beats more, so that a note that was on its way at its end must just have come, or just not."""
    got = {pair[0] for pair in pairs(run)}
    lost = [entry_at(run, place).beat for place in places(run, of_word("sent")) if place not in got]
    beats = pick(rng, [beat for beat in lost if beat + run.plan.delay >= run.beats]) + run.plan.delay + rng.choice((0, 1, 1))
    if beats <= run.beats:
        raise NoChange
    run.beats = beats


def ends_on_the_way(rng, run):
    """Of the last notes of a link those from one on are not got, near the beat from which on they may be lost."""
    edge = run.beats - run.plan.delay
    last = [pair for pair in pairs(run) if edge - 2 <= entry_at(run, pair[0]).beat <= edge]
    _, (node, at) = pick(rng, last)
    link = link_of(run.journals[node][at])
    without(run, [place for place in on_link(run, node, "got", link) if place[1] >= at])


# 2: timed

def reads_beside(rng, run):
    """A reading is a microsecond beside what the clock shows, or just above the skew, or just below the true time."""
    node, at = pick(rng, places(run, lambda e: True))
    e = run.journals[node][at]
    true = e.beat * run.plan.beat
    reading = max(0, rng.choice((e.reading - 1, e.reading + 1, true + run.plan.skew + 1, true - 1)))
    run.journals[node][at] = e._replace(reading=reading)


def falls(rng, run):
    """Two entries of different beats stand in the wrong order."""
    found = [(journal, at) for journal in run.journals for at, (e, f) in enumerate(zip(journal, journal[1:]))
             if e.beat < f.beat and not (e.word == f.word and e.fields[:1] == f.fields[:1])]
    journal, at = pick(rng, found)
    journal[at], journal[at + 1] = journal[at + 1], journal[at]


def loses_death(rng, run):
    """A death, or a return, is not told."""
    without(run, [pick(rng, places(run, of_word("died", "returned")))])


def dies_too(rng, run):
    """A cub that lives tells its death, or one that did not die its return."""
    wrote(run, pick(rng, [cub for cub in range(run.plan.cubs) if cub not in run.lives]), run.beats - 1,
          rng.choice(("died", "returned")))


def dies_twice(rng, run):
    """A death, or a return, is told twice."""
    node, at = pick(rng, places(run, of_word("died", "returned")))
    run.journals[node].insert(at, run.journals[node][at])


def dies_beside(rng, run):
    """A death is one beat beside that of the first lines, or a return is."""
    cub = pick(rng, run.lives)
    life = run.lives[cub]
    if life.back is not None and rng.random() < 0.5:
        back = max(life.death + 2, min(run.beats - 1, life.back + rng.choice(STEPS)))
        run.lives[cub] = life._replace(back=back)
    else:
        run.lives[cub] = life._replace(death=max(0, min(run.beats - 1, life.death + rng.choice(STEPS))), back=None)


def dies_uncut(rng, run):
    """A death that cut a cub off in its beat comes before that beat by the first lines."""
    cub = pick(rng, [cub for cub, life in run.lives.items() if life.left is not None])
    run.lives[cub] = run.lives[cub]._replace(left=None)


def neighbour_dies(rng, run):
    """Two cubs side by side die: one does so in the last beat."""
    cub = pick(rng, [(cub + step) % run.plan.cubs for cub in run.lives for step in STEPS])
    dies_at_end(run, cub)


def dies_at_end(run, cub):
    """Has a cub that lives die in the last beat, behind all that it does there."""
    if cub in run.lives:
        raise NoChange
    run.lives[cub] = Life(run.beats - 1, 0, None)
    wrote(run, cub, run.beats - 1, "died")


def two_neighbours_die(rng, run):
    """Two cubs side by side, or with one between them, die in the last beat."""
    cub = pick(rng, range(run.plan.cubs))
    dies_at_end(run, cub)
    dies_at_end(run, (cub + rng.choice((1, 2))) % run.plan.cubs)


def other_offset(rng, run):
    """By the first lines a clock is a microsecond beside what its node's entries show."""
    at = rng.randrange(len(run.offsets))
    run.offsets[at] += rng.choice(STEPS)
    if not 0 <= run.offsets[at] <= run.plan.skew:
        raise NoChange


# 3: commanded

def loses_gone(rng, run):
    """A stop that takes effect is not told, or was not ordered."""
    node, at = pick(rng, places(run, of_word("gone")))
    if rng.random() < 0.5:
        without(run, [(node, at)])
    else:
        run.orders = [order for order in run.orders if order.stop != run.journals[node][at].fields[0]]


def gone_unasked(rng, run):
    """A stop is told that was not ordered, or a second time."""
    instances = [order.ask.instance for order in run.orders if order.ask]
    wrote(run, run.controller, rng.randrange(run.beats), "gone", pick(rng, instances))


def gone_late(rng, run):
    """A stop is told a beat beside that of its order."""
    place = pick(rng, places(run, of_word("gone")))
    moved(run, place, entry_at(run, place).beat + rng.choice(STEPS))


def gone_elsewhere(rng, run):
    """A cub tells a stop."""
    wrote(run, rng.randrange(run.plan.cubs), rng.randrange(run.beats), "gone", rng.randrange(3))


def ordered_beside(rng, run):
    """An order is of the beat beside its own."""
    at = pick(rng, range(len(run.orders)))
    beat = run.orders[at].beat + rng.choice(STEPS)
    beats = [order.beat for order in run.orders]
    if not max([0, *beats[:at]]) <= beat <= min([run.beats - 1, *beats[at + 1:]]):
        raise NoChange
    run.orders[at] = run.orders[at]._replace(beat=beat)


def starts_less(rng, run):
    """A start is not sent to one of its two cubs, or twice."""
    pair = pick(rng, pairs(run, START))
    e = entry_at(run, pair[0])
    if rng.random() < 0.5:
        without(run, pair)
    else:
        sends(run, link_of(e), e.beat, note_of(e))


def starts_otherwise(rng, run):
    """A start asks for something that was not ordered, or is the redundant one in place of the plain one."""
    pair = pick(rng, pairs(run, START))
    note = list(note_of(entry_at(run, pair[0])))
    at = rng.randrange(1, 6)
    note[at] = 1 - note[at] if at == 5 else note[at] + 1
    with_note(run, pair, note)


def starts_swapped(rng, run):
    """Two starts of a beat go out in the wrong order."""
    journal = run.journals[run.controller]
    found = [at for at, (e, f) in enumerate(zip(journal, journal[1:]))
             if has_note(e, "sent", START) and has_note(f, "sent", START) and e.beat == f.beat and link_of(e) != link_of(f)]
    at = pick(rng, found)
    journal[at], journal[at + 1] = journal[at + 1], journal[at]


def stop_at(run, v, beat):
    """Orders a stop in a beat, behind all other orders of it."""
    if not 0 <= beat < run.beats or not any(o.ask and o.ask.instance == v and o.beat <= beat for o in run.orders):
        raise NoChange
    run.orders.insert(sum(order.beat <= beat for order in run.orders), Order(beat, None, v))


def stop_at_the_edge(rng, run):
    """A stop is ordered and not told, near the beat from which on the tenancy is known to be over."""
    placed = [tenancy_of(note_of(e)[1:]) for e in run.journals[run.controller] if has_note(e, "got", PLACED)]
    t = pick(rng, placed)
    over = due(run, t.slot, t.last + 1) - run.reading(run.controller, 0)
    stop_at(run, t.instance, -(-over // run.plan.beat) + rng.choice((-1, 0)))


def stop_unheeded(rng, run):
    """A stop is ordered in some beat, and not told."""
    instances = [order.ask.instance for order in run.orders if order.ask]
    stop_at(run, pick(rng, instances), rng.randrange(run.beats))
