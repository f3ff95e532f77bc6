"""Changes of kept runs that are to make the clauses 7 to 11 of an audit false, for tools/mutations.py: of reads, beliefs and
faults, and of the blocks and pieces that go to the viewers.

Python 3.8 or later, and nothing but its standard library.
"""
from changing_runs import (STEPS, NoChange, entry_at, of_word, pairs, pick, places, sends, sent_later, with_fields, with_note,
                           with_plan, without, wrote)
from course_changes import stop_at
from kept_runs import ASK, PIECE, WHOLE, Fault, Want, link_of, note_of, parcel_of, tenancy_of, want_of
from moments import due, true_time


def a_parcel(rng, run):
    """The places where a block or a piece is sent and got: as often a piece as a block, if there are pieces."""
    return pick(rng, (rng.random() < 0.5 and pairs(run, PIECE)) or pairs(run, WHOLE, PIECE))


# 7: once

def asks_twice(rng, run):
    """A read is asked for twice, where it is sent and where it is got."""
    e = entry_at(run, pick(rng, pairs(run, ASK))[0])
    sends(run, link_of(e), min(run.beats - 1, e.beat + rng.choice((0, 1, 20))), note_of(e))


def asks_for_piece(rng, run):
    """A piece is asked for of a block, about the beat of its cub's death or if that lives, by a cub before or behind it."""
    want = want_of(entry_at(run, pick(rng, pairs(run, ASK))[0]))
    died = [life.death for cub, life in run.lives.items() if cub == want.visit % run.plan.cubs]
    node = rng.randrange(run.plan.cubs)
    beat = died[0] + rng.choice((-1, 0, 0, 1)) if died else rng.randrange(run.beats)
    sends(run, run.link_between(node, run.plan.cubs + node), beat, (ASK, *want._replace(piece=1 + rng.randrange(90))))


def asks_for_dead(rng, run):
    """A piece is asked for of a block of a cub that dies, about the beat of its death."""
    cub = pick(rng, run.lives)
    node = pick(rng, [node for node in range(run.plan.cubs) if node not in run.lives])
    want = Want(0, 0, cub, 0, 0, 1 + rng.randrange(80))
    sends(run, run.link_between(node, run.plan.cubs + node), run.lives[cub].death + rng.choice((-1, 0, 0, 1)), (ASK, *want))


def serves_two(rng, run):
    """A block, or a piece, of a visit goes out for another instance too."""
    pair = a_parcel(rng, run)
    e, parcel = entry_at(run, pair[0]), parcel_of(entry_at(run, pair[0]))
    want = parcel.want._replace(instance=parcel.want.instance + 1)
    sends(run, parcel.link, min(run.beats - 1, e.beat + rng.randrange(5)), (parcel.note[0], *want, *parcel.note[7:]))


# 8: beliefs

def believes_living(rng, run):
    """A cub believes a node dead that lives."""
    cub = rng.randrange(run.plan.cubs)
    wrote(run, cub, rng.randrange(run.beats), "believed", rng.choice((cub, (cub - 1) % run.plan.cubs, run.plan.cubs)))


def believes_soon(rng, run):
    """A cub believes another one dead about the beat of its death: before or behind it in the order of all entries."""
    cub = pick(rng, run.lives)
    node = pick(rng, [node for node in range(run.plan.cubs) if node not in run.lives])
    wrote(run, node, run.lives[cub].death + rng.choice((-1, 0, 0, 0, 1)), "believed", cub)


def believes_other(rng, run):
    """A cub believes another one dead than the one that died."""
    place = pick(rng, places(run, of_word("believed")))
    with_fields(run, place, ((entry_at(run, place).fields[0] + rng.choice((1, run.plan.cubs - 1))) % run.plan.cubs,))


# 9: faults

def fails_unfaulted(rng, run):
    """A read is told to have failed that met no fault."""
    e = entry_at(run, pick(rng, pairs(run, ASK))[0])
    wrote(run, rng.randrange(run.plan.cubs), min(run.beats - 1, e.beat + rng.randrange(6)), "readfailed", *want_of(e))


def fails_at_the_edge(rng, run):
    """A read is told to have failed, of which the disk has a fault about the beat in which it got the ask."""
    _, got = pick(rng, pairs(run, ASK))
    e, disk = entry_at(run, got), got[0] - run.plan.cubs
    start = max(0, e.beat + rng.choice((-1, 0, 1)))
    run.faults.append(Fault(disk, min(start, run.beats - 1), min(start, run.beats - 1) + 1))
    wrote(run, rng.randrange(run.plan.cubs), min(run.beats - 1, e.beat + rng.choice((0, 1, 1, 2))), "readfailed", *want_of(e))


def loses_fault(rng, run):
    """A read fault is not there, or of another disk, or of the beats beside its own."""
    at = pick(rng, range(len(run.faults)))
    fault = run.faults[at]
    other = rng.choice((None, fault._replace(disk=(fault.disk + 1) % run.disk_count), fault._replace(start=fault.until - 1)))
    run.faults[at:at + 1] = [other] if other else []


def fails_other(rng, run):
    """A read that failed is told of something that was not asked for."""
    place = pick(rng, places(run, of_word("readfailed")))
    fields = list(entry_at(run, place).fields)
    fields[rng.choice((0, 2, 3, 4, 5))] += 1
    with_fields(run, place, fields)


# 10: delivery

def loses_block(rng, run):
    """A block, or a piece, is neither sent nor got."""
    without(run, a_parcel(rng, run))


def note_in(parcel):
    """The note of a parcel as one that is sent in another beat."""
    return lambda beat: (*parcel.note[:7], beat, *parcel.note[8:])


def sends_beside(rng, run):
    """A block, or a piece, is sent some beats beside its time."""
    pair = a_parcel(rng, run)
    sent_later(run, pair, rng.choice((-3, -2, -1, 1, 2, 3)), note_in(parcel_of(entry_at(run, pair[0]))))


def sends_twice(rng, run):
    """A block, or a piece, is sent and got twice."""
    parcel = parcel_of(entry_at(run, a_parcel(rng, run)[0]))
    sends(run, parcel.link, parcel.sent, parcel.note)


def sends_other(rng, run):
    """A block, or a piece, is of other bytes, another block or piece, or names another beat, where it is sent and got."""
    pair = a_parcel(rng, run)
    note = list(note_of(entry_at(run, pair[0])))
    at = rng.choice((0, 4, 5, 6, 7, 8, 9, 10))
    note[at] = WHOLE + PIECE - note[at] if at == 0 else max(0, note[at] + rng.choice(STEPS))
    with_note(run, pair, note)


def sends_elsewhere(rng, run):
    """A block, or a piece, comes from another cub."""
    pair = a_parcel(rng, run)
    parcel = parcel_of(entry_at(run, pair[0]))
    cub = pick(rng, [cub for cub in range(run.plan.cubs) if cub != pair[0][0] and cub not in run.lives])
    sent_later(run, pair, 0, note_in(parcel), run.link_between(cub, run.viewers))


def sends_astray(rng, run):
    """The viewers get a block, or a piece, of the visit before a tenancy's first one or behind its last one, or one more
    piece."""
    pair = a_parcel(rng, run)
    parcel = parcel_of(entry_at(run, pair[0]))
    t = pick(rng, [t for t, _ in visits_put(run) if t.instance == parcel.want.instance])
    visit = rng.choice((t.first - 1, t.last + 1, parcel.want.visit))
    piece = parcel.want.piece if visit != parcel.want.visit else rng.choice((0, run.plan.pieces + 1))
    want = Want(t.instance, t.slot, max(0, visit), t.file, max(0, visit - t.first), piece)
    kind = PIECE if piece else rng.choice((WHOLE, PIECE))
    sends(run, parcel.link, parcel.sent, (kind, *want, parcel.sent, *parcel.span))


def loses_excuse(rng, run):
    """A read that failed is not told, or a stop is neither ordered nor told."""
    place = pick(rng, places(run, of_word("readfailed", "gone")))
    e = entry_at(run, place)
    without(run, [place])
    if e.word == "gone":
        run.orders = [order for order in run.orders if order.stop != e.fields[0]]


def parcels_of(run, v, visit):
    """The places of the blocks and pieces of an instance's visit, where they are sent and where they are got."""
    return [pair for pair in pairs(run, WHOLE, PIECE) if parcel_of(entry_at(run, pair[0])).want[0:3:2] == (v, visit)]


def visits_put(run):
    """The tenancies that are put, each with one of its visits that is due in the run."""
    puts = [tenancy_of(entry_at(run, place).fields) for place in places(run, of_word("put"))]
    return [(t, visit) for t in puts for visit in range(t.first, t.last + 1)
            if due(run, t.slot, visit) <= true_time(run, run.beats)]


def loses_visit(rng, run, t, visit):
    """Neither sends nor gets one of the blocks and pieces of a visit, or all of them."""
    found = parcels_of(run, t.instance, visit)
    lost = found if rng.random() < 0.5 else found[:1]
    without(run, [place for pair in lost for place in pair])


def loses_of_dead(rng, run):
    """A block, or a piece, of a visit of a cub that dies, or of one that sends pieces and dies, does not come."""
    dead = {(cub + step) % run.plan.cubs for cub in run.lives for step in (0, 1)}
    loses_visit(rng, run, *pick(rng, [(t, visit) for t, visit in visits_put(run) if visit % run.plan.cubs in dead]))


def takes_over_at_the_edge(rng, run):
    """A cub dies just soon enough before a visit for the next one to take over, or just not, and what is sent is lost."""
    found = [(t, visit) for t, visit in visits_put(run) if visit % run.plan.cubs in run.lives]
    t, visit = pick(rng, found)
    p = run.plan
    death = true_time(run, run.lives[visit % p.cubs].death)
    rest = 2 * p.delay * p.beat + 3 * p.skew + p.read_lead + 2 * p.beat + 1
    with_plan(run, deadman=due(run, t.slot, visit) - death - rest + rng.choice((0, 0, 1)))
    loses_visit(rng, run, t, visit)


def is_back_at_the_edge(rng, run):
    """A cub is back just soon enough before a visit to serve it, or to send its piece, or just not, and what is sent is lost."""
    p = run.plan
    back = [cub for cub, life in run.lives.items() if life.back is not None]
    t, visit = pick(rng, [(t, visit) for t, visit in visits_put(run) if visit % p.cubs in back])
    time = due(run, t.slot, visit) - run.reading(visit % p.cubs, run.lives[visit % p.cubs].back)
    with_plan(run, max_lead=time - 6 * p.play + rng.choice((0, 1)), min_lead=p.window_a + 2 * p.play + p.skew, batch=1)
    loses_visit(rng, run, t, visit)


def cut_to(run, beats):
    """Ends a run in front of a beat."""
    run.beats = beats
    run.journals = [[e for e in journal if e.beat < beats] for journal in run.journals]
    run.orders = [order for order in run.orders if order.beat < beats]
    run.digests = run.digests[:sum(order.ask is not None for order in run.orders)]
    run.lives = {cub: life._replace(back=life.back if life.back and life.back < beats else None)
                 for cub, life in run.lives.items() if life.death < beats}
    run.faults = [fault._replace(until=min(fault.until, beats)) for fault in run.faults if fault.start < beats]


def settled_at_the_edge(rng, run):
    """The run ends just when a visit is settled, or a beat before, and its block, or one of its pieces, does not come."""
    t, visit = pick(rng, visits_put(run))
    beats = -(-(due(run, t.slot, visit) + 2 * run.plan.play) // run.plan.beat) - rng.choice((0, 1))
    if beats > run.beats:
        raise NoChange
    cut_to(run, beats)
    loses_visit(rng, run, t, visit)


def stops_at_the_edge(rng, run):
    """A block does not come, and its instance is stopped just when that still excuses it, or a beat later; then the run ends."""
    t, visit = pick(rng, visits_put(run))
    over = due(run, t.slot, visit) + run.plan.play
    beat = -(-over // run.plan.beat) - rng.choice((0, 1))
    settled = -(-(over + run.plan.play) // run.plan.beat)
    if settled > run.beats or any(e.word == "gone" and e.fields[0] == t.instance for e in run.journals[run.controller]):
        raise NoChange
    cut_to(run, settled)
    stop_at(run, t.instance, beat)
    wrote(run, run.controller, beat, "gone", t.instance)
    loses_visit(rng, run, t, visit)


# 11: turns

def sends_next_early(rng, run):
    """A cub sends the next visit's block to another node, about the beat in which the viewers got the one before."""
    _, got = a_parcel(rng, run)
    e, parcel = entry_at(run, got), parcel_of(entry_at(run, got))
    want = parcel.want._replace(visit=parcel.want.visit + 1, block=parcel.want.block + 1, piece=0)
    node = pick(rng, [cub for cub in range(run.plan.cubs) if cub not in run.lives])
    to = rng.choice(((node + 1) % run.plan.cubs, run.controller, run.plan.cubs + node))
    beat = e.beat + rng.choice((-2, -1, 0, 0, 1, 1))
    sends(run, run.link_between(node, to), beat, (WHOLE, *want, beat, *parcel.span))


def sends_last_late(rng, run):
    """A block near the end of the run is sent about the beat of the next one."""
    found = pairs(run, WHOLE, PIECE)
    late = [pair for pair in found if (entry_at(run, pair[0]).beat * run.plan.beat + 3 * run.plan.play
                                       >= run.beats * run.plan.beat)]
    pair = pick(rng, late)
    parcel = parcel_of(entry_at(run, pair[0]))
    later = [other for other in found if parcel_of(entry_at(run, other[0])).want[:3]
             == (*parcel.want[:2], parcel.want.visit + 1)]
    beats = entry_at(run, pick(rng, later)[0]).beat - parcel.sent
    sent_later(run, pair, beats + rng.choice((-1, 0, 1)), note_in(parcel))
