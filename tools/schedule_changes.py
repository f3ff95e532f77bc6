"""Changes of kept runs that are to make the clauses 4 to 6 and 12 of an audit false, for tools/mutations.py: of Puts, of what
cubs have and tell of them, of stopped instances, and of starts that wait.

Python 3.8 or later, and nothing but its standard library.
"""
from changing_runs import (STEPS, NoChange, moved, entry_at, of_word, pairs, pick, places, sends, with_fields, with_note,
                           with_plan, without, wrote)
from course_changes import stop_at
from kept_runs import PIECE, START, STATE, WHOLE, Ask, File, Order, Tenancy, note_of, parcel_of, record_of, tenancy_of
from moments import due


# 4: Puts

def a_put(rng, run):
    """The place of a Put, and its tenancy."""
    place = pick(rng, places(run, of_word("put")))
    return place, tenancy_of(entry_at(run, place).fields)


def puts_other(rng, run):
    """A Put is of another tenancy: a visit or a turn later, with one visit more or fewer, of another file or instance."""
    place, t = a_put(rng, run)
    disks = run.disk_count
    with_fields(run, place, rng.choice((
        t._replace(first=t.first + 1, last=t.last + 1), t._replace(first=t.first + disks, last=t.last + disks),
        t._replace(last=t.last + 1), t._replace(first=t.first + 1), t._replace(file=t.file + 1),
        t._replace(instance=t.instance + 1))))


def puts_taken(rng, run):
    """A Put is into another slot, that of another tenancy if there is one."""
    place, t = a_put(rng, run)
    slots = {tenancy_of(entry_at(run, other).fields).slot for other in places(run, of_word("put"))} - {t.slot}
    slots = slots or set(range(run.plan.slots)) - {t.slot}
    with_fields(run, place, t._replace(slot=pick(rng, sorted(slots))))


def puts_twice(rng, run):
    """An instance is put twice."""
    place, t = a_put(rng, run)
    wrote(run, place[0], min(run.beats - 1, entry_at(run, place).beat + rng.randrange(3)), "put", *t)


def puts_elsewhere(rng, run):
    """Another node puts, in the same beat."""
    place, _ = a_put(rng, run)
    node = pick(rng, [(place[0] + step) % run.plan.cubs for step in (1, run.plan.cubs - 1)] + [run.controller])
    moved(run, place, entry_at(run, place).beat, node)


def puts_late(rng, run):
    """A Put comes a few beats later or earlier, when its visit may be out of the window."""
    place, _ = a_put(rng, run)
    moved(run, place, entry_at(run, place).beat + rng.choice((-60, -20, -5, -1, 1, 5, 20, 60)))


def puts_behind(rng, run):
    """A Put is into a slot whose tenancy was of fewer visits, or more: it ends just before the Put's first one, or with it."""
    place, t = a_put(rng, run)
    other = Tenancy(len(run.digests), len(run.files), t.slot, t.first - 1, t.first - 1 + rng.choice((0, 1)))
    put_before(run, place, other)


def put_before(run, place, t):
    """Orders a start of a new file in the first beat, and puts this tenancy of it in the last beat that its window has."""
    beat = -(-(due(run, t.slot, t.first) - run.plan.window_b - run.reading(t.first % run.plan.cubs, 0)) // run.plan.beat) - 1
    if t.first < 0 or beat < 0 or t.first % run.plan.cubs in run.lives or beat > entry_at(run, place).beat:
        raise NoChange
    order_new(run, max(order.beat for order in run.orders), t.first % run.disk_count, t.last + 1 - t.first)
    wrote(run, t.first % run.plan.cubs, beat, "put", *t)


def window_at_the_edge(rng, run):
    """The window ends, or begins, just before a Put's visit, or just behind it."""
    place, t = a_put(rng, run)
    ahead = due(run, t.slot, t.first) - entry_at(run, place).reading
    key = rng.choice(("window_a", "window_b"))
    with_plan(run, **{key: ahead - rng.choice((0, 1))})


# 5: views

def takes_other(rng, run):
    """A record is taken of a visit beside its own, or of the other kind, or of another instance."""
    place = pick(rng, places(run, of_word("took")))
    fields = list(entry_at(run, place).fields)
    at = rng.choice((0, 1, 5, 6))
    fields[at] = 1 - fields[at] if at == 6 else max(0, fields[at] + rng.choice(STEPS))
    with_fields(run, place, fields)


def takes_elsewhere(rng, run):
    """Another cub takes a record, in the same beat."""
    place = pick(rng, places(run, of_word("took")))
    moved(run, place, entry_at(run, place).beat, rng.randrange(run.plan.cubs))


def takes_early(rng, run):
    """A record is taken some beats earlier: maybe before its state came."""
    place = pick(rng, places(run, of_word("took")))
    moved(run, place, entry_at(run, place).beat - rng.choice((1, 2, 5)))


def loses_put(rng, run):
    """A tenancy is not put."""
    without(run, [a_put(rng, run)[0]])


def keeps(rng, run):
    """A record is not dropped, or later than it was, or it is taken twice."""
    place = pick(rng, places(run, of_word("dropped")))
    e = entry_at(run, place)
    if rng.random() < 0.3:
        without(run, [place])
    else:
        moved(run, place, min(run.beats - 1, e.beat + rng.randint(1, 2 * run.plan.play // run.plan.beat)))


def keeps_to_the_edge(rng, run):
    """A record of a stopped instance is dropped near the end of the block play time behind the stop."""
    gone = {e.fields[0]: e.beat for e in run.journals[run.controller] if e.word == "gone"}
    place = pick(rng, places(run, lambda e: e.word == "dropped" and e.fields[0] in gone))
    e = entry_at(run, place)
    edge = gone[e.fields[0]] + run.plan.play // run.plan.beat
    if edge < e.beat:
        raise NoChange
    moved(run, place, min(run.beats - 1, edge + rng.choice((0, 1, 2))))


def drops_early(rng, run):
    """A record is dropped before the cub has told the next ones of it."""
    place = pick(rng, places(run, of_word("took")))
    e = entry_at(run, place)
    wrote(run, place[0], e.beat, "dropped", *e.fields)


def tells_other(rng, run):
    """A viewer state is of another visit or tenancy, where it is sent and where it is got."""
    pair = pick(rng, pairs(run, STATE))
    note = list(note_of(entry_at(run, pair[0])))
    at = rng.choice((1, 2, 5, 6))
    note[at] += 1
    with_note(run, pair, note)


def loses_states(rng, run):
    """All that a cub was told of a tenancy's visits by viewer states is neither sent nor got."""
    sent, got = pick(rng, pairs(run, STATE))
    t = note_of(entry_at(run, sent))[1:6]
    without(run, [place for pair in pairs(run, STATE) if pair[1][0] == got[0] and note_of(entry_at(run, pair[0]))[1:6] == t
                  for place in pair])


def leads_at_the_edge(rng, run):
    """The greatest lead is so short that a record is taken just too early, or just not."""
    place = pick(rng, places(run, of_word("took")))
    e = entry_at(run, place)
    r = record_of(e)
    lead = due(run, r.tenancy.slot, r.visit) - e.reading - run.plan.play - run.plan.skew
    with_plan(run, max_lead=max(1, lead - rng.choice((0, 1))), batch=1)


# 6: no return

def stops_of(run):
    """The instances that were stopped, and when."""
    return [(e.fields[0], e.beat) for e in run.journals[run.controller] if e.word == "gone"]


def beats_behind(rng, run, beat, span):
    """A beat near the last one that begins within a span behind another."""
    return beat + span // run.plan.beat + rng.choice((0, 1, 1, 2))


def sends_after_stop(rng, run):
    """A block of a stopped instance goes to the viewers once more, near the end of the block play time behind the stop."""
    v, beat = pick(rng, stops_of(run))
    pair = pick(rng, [pair for pair in pairs(run, WHOLE, PIECE) if parcel_of(entry_at(run, pair[0])).want.instance == v])
    parcel, now = parcel_of(entry_at(run, pair[0])), beats_behind(rng, run, beat, run.plan.play)
    sends(run, parcel.link, now, (*parcel.note[:7], now, *parcel.note[8:]))


def takes_after_stop(rng, run):
    """A node that is no cub takes a record of a stopped instance, near the end of the block play time behind the stop."""
    v, beat = pick(rng, stops_of(run))
    node = rng.choice((run.plan.cubs, run.controller, run.viewers))
    wrote(run, node, beats_behind(rng, run, beat, run.plan.play), "took", v, 0, 0, 0, 1, 0, 0)


def puts_after_stop(rng, run):
    """A stopped instance that was never put is put, in the window of its disk's cub."""
    put = {e.fields[0] for journal in run.journals for e in journal if e.word == "put"}
    v, beat = pick(rng, [stop for stop in stops_of(run) if stop[0] not in put])
    put_somewhere(rng, run, next(order.ask for order in run.orders if order.ask and order.ask.instance == v), beat)


def stops_the_unput(rng, run):
    """A start that is ordered for a new file is stopped in the beat of its order, and put nevertheless."""
    beat = rng.randrange(max(1, run.beats // 2))
    ask = start_of_new_file(rng, run, beat)
    stop_at(run, ask.instance, beat)
    wrote(run, run.controller, beat, "gone", ask.instance)
    put_somewhere(rng, run, ask, beat)


def put_somewhere(rng, run, ask, beat):
    """Puts what was asked for into a slot that nobody ever has, near the longest way behind a beat or later."""
    cub, taken = ask.disk % run.plan.cubs, {e.fields[2] for journal in run.journals for e in journal if e.word == "put"}
    found = []
    for slot in set(range(run.plan.slots)) - taken:
        for visit in range(ask.disk, ask.disk + 4 * run.disk_count, run.disk_count):
            first = -(-(due(run, slot, visit) - run.plan.window_a - run.reading(cub, 0)) // run.plan.beat)
            last = -(-(due(run, slot, visit) - run.plan.window_b - run.reading(cub, 0)) // run.plan.beat) - 1
            found += [(slot, visit, now) for now in range(max(first, beat), min(last + 1, run.beats))]
    soon = [place for place in found if beat + run.plan.delay <= place[2] <= beat + run.plan.delay + 1]
    slot, visit, now = pick(rng, soon if soon and rng.random() < 0.5 else found)
    if cub in run.lives:
        raise NoChange
    wrote(run, cub, now, "put", ask.instance, ask.file, slot, visit, visit + ask.count - 1)


# 12: patience

def start_of_new_file(rng, run, beat):
    """Orders a start of a file that was not there, in a beat behind all orders, and has it sent to both cubs; what is asked."""
    disk = rng.randrange(run.disk_count)
    if run.lives and rng.random() < 0.5:
        disk = rng.choice(sorted(run.lives))
    if any(order.beat > beat and order.ask for order in run.orders):
        raise NoChange
    return order_new(run, beat, disk, rng.randint(1, 3))


def order_new(run, beat, disk, count):
    """Orders a start of a new file of so many blocks from a disk on, and has it sent to both cubs; what is asked."""
    ask = Ask(len(run.digests), len(run.files), count, disk)
    run.files.append(File(count * run.plan.block, disk))
    run.digests.append("0" * 64)
    run.orders.insert(sum(order.beat <= beat for order in run.orders), Order(beat, ask, None))
    for redundant in (0, 1):
        cub = (disk + redundant) % run.plan.cubs
        link = run.link_between(run.controller, cub)
        if cub not in run.lives:
            sends(run, link, beat, (START, *ask, redundant))
        else:
            wrote(run, run.controller, beat, "sent", link, START, *ask, redundant)
    return ask


def starts_unheeded(rng, run):
    """A start is ordered and sent, and nobody is put, in a beat behind all other orders."""
    last = max([0, *(order.beat for order in run.orders)])
    start_of_new_file(rng, run, rng.choice((last, rng.randrange(last, run.beats))))


def names_instance(e, v):
    """Whether an entry tells anything of an instance but its start and its stop."""
    if e.word in ("got", "sent"):
        return len(e.fields) > 2 and e.fields[1] != START and e.fields[2] == v and e.fields[1] < 11
    return e.word in ("put", "took", "dropped", "queued", "unqueued", "readfailed") and e.fields[0] == v


def starts_forgotten(rng, run):
    """An instance that was put is told of by nothing but its start, in all journals."""
    v = a_put(rng, run)[1].instance
    without(run, places(run, lambda e: names_instance(e, v)))


def starts_in_other_window(rng, run):
    """A start is ordered and not put, and the window is longer or shorter, as far as it has all Puts."""
    puts = [entry_at(run, place) for place in places(run, of_word("put"))]
    ahead = [due(run, e.fields[2], e.fields[3]) - e.reading for e in puts]
    starts_unheeded(rng, run)
    if rng.random() < 0.5:
        widest = run.plan.play - run.plan.skew - run.plan.beat
        with_plan(run, window_a=rng.choice((max(ahead), max(ahead) + run.plan.beat, widest)))
    else:
        with_plan(run, window_b=rng.choice((min(ahead) - 1, min(ahead) - run.plan.beat)))
