"""The twelve clauses of `tiger audit`, each evaluated as its definition says it, slowly and plainly: over all entries of a
run, with nothing but lists, sets and loops. tools/audit-mutations compares the program's answers with it.

docs/auditing.md has the clauses, docs/definitions.md where each definition stands (run_model, run_facts and run_claims). It
shares no code with the crates, and was not written from theirs. A text of a run is taken as it stands, if it is a writable one.

Python 3.8 or later, and nothing but its standard library.
"""
import delivered
from kept_runs import (ASK, OWN, PIECE, PLACED, START, STATE, WHOLE, Want, ask_of, has_note, is_redundant, link_of,
                       note_of, parcel_of, record_of, tenancy_of, want_of)
from moments import Moment, due, in_window, log_of, moments, true_time

MOST_VISIT = 2 ** 31  # the last visit of a tenancy in form


def is_carried(run):
    """1: What each node got on a link is what was sent there, in order and in time, and what was not got may be lost."""
    at_ends = all(run.ends(link_of(e)) is not None and run.ends(link_of(e))[e.word == "got"] == node
                  for node, journal in enumerate(run.journals) for e in journal if e.word in ("got", "sent"))
    links = {link_of(e) for journal in run.journals for e in journal if e.word in ("got", "sent")}
    return at_ends and all(carries(run, link) for link in links)


def carries(run, link):
    """Whether a link does; if its receiver returns, that of the beats below the return goes apart from the others."""
    sender, receiver = run.ends(link)
    sent = [(e.beat, note_of(e)) for e in run.journals[sender] if e.word == "sent" and link_of(e) == link]
    got = [(e.beat, note_of(e)) for e in run.journals[receiver] if e.word == "got" and link_of(e) == link]
    life = run.life(receiver)
    if life.back is None:
        return is_front(run, life, sent, got)
    return (is_front(run, life, [d for d in sent if d[0] < life.back], [d for d in got if d[0] < life.back])
            and is_front(run, life, [d for d in sent if d[0] >= life.back], [d for d in got if d[0] >= life.back]))


def is_front(run, life, sent, got):
    """Whether what was got is the first that was sent, from one beat to the delay later, and the rest may be lost."""
    if len(got) > len(sent):
        return False
    in_time = all(note == same and beat + 1 <= now <= beat + run.plan.delay
                  for (beat, note), (now, same) in zip(sent, got))
    return in_time and all(may_be_lost(run, life, beat) for beat, _ in sent[len(got):])


def may_be_lost(run, life, sent):
    """Whether the run ends before a note must have come, or its receiver died by then and was not back when it was sent."""
    latest = sent + run.plan.delay
    return run.beats <= latest or (life.death is not None and life.death <= latest
                                   and (life.back is None or sent < life.back))


def is_timed(run):
    """2: Each entry has its clock's reading, no journal goes back, and deaths and returns are the given ones and apart."""
    cubs = run.plan.cubs
    apart = not any(cub in run.lives and (cub + 1) % cubs in run.lives for cub in range(cubs))
    return apart and all(is_journal_timed(run, node, journal) for node, journal in enumerate(run.journals))


def is_journal_timed(run, node, journal):
    """Whether so it is of one journal."""
    reads = all(true_time(run, e.beat) <= e.reading <= true_time(run, e.beat) + run.plan.skew
                and e.reading == run.reading(node, e.beat) for e in journal)
    rising = all(e.beat <= f.beat and e.reading <= f.reading for e, f in zip(journal, journal[1:]))
    return (reads and rising and all(e.beat < run.beats for e in journal) and tells_death(run.life(node), journal)
            and tells_return(run, run.life(node), journal))


def tells_death(life, journal):
    """Whether a death stands in a journal once and in its beat, with nothing before it that is too late, and nothing behind
    it but what is of beats from the return on; or no death, if there is none."""
    deaths = [at for at, e in enumerate(journal) if e.word == "died"]
    if life.death is None:
        return not deaths
    if len(deaths) != 1 or journal[deaths[0]].beat != life.death:
        return False
    before, later = journal[:deaths[0]], journal[deaths[0] + 1:]
    in_time = all(e.beat < life.death if life.left is None else e.beat <= life.death for e in before)
    return in_time and (not later if life.back is None else all(life.back <= e.beat for e in later))


def tells_return(run, life, journal):
    """Whether a return is exactly the entry behind a death, in its beat, and there if the run comes to that beat."""
    died = False
    for e in journal:
        if (e.word == "returned") != died or (died and life.back != e.beat):
            return False
        died = e.word == "died"
    return not died or life.back is None or life.back >= run.beats


def is_commanded(run):
    """3: The controller sends the starts of each beat's orders, tells each stop that takes effect, once, and nobody else does."""
    journal = run.journals[run.controller]
    starts = all(starts_sent(run, journal, beat) == starts_ordered(run, beat) for beat in range(run.beats))
    gone = [(e.fields[0], e.beat) for e in journal if e.word == "gone"]
    asked = gone + [(order.stop, order.beat) for order in run.orders if order.ask is None]
    stops = all(((v, beat) in gone) == takes_effect(run, journal, v, beat) for v, beat in asked)
    once = len({v for v, _ in gone}) == len(gone)
    others = not any(e.word == "gone" for node, other in enumerate(run.journals) if node != run.controller for e in other)
    return starts and stops and once and others


def starts_sent(run, journal, beat):
    """The starts that a journal sends in a beat, each with the node to which its link leads."""
    return [((run.ends(link_of(e)) or (None, None))[1], ask_of(e), is_redundant(e))
            for e in journal if e.beat == beat and has_note(e, "sent", START)]


def starts_ordered(run, beat):
    """The starts that the orders of a beat want: the plain one to the disk's cub, and the redundant one to the next."""
    cubs, wanted = run.plan.cubs, []
    for order in run.orders:
        if order.beat == beat and order.ask is not None:
            wanted.append((order.ask.disk % cubs, order.ask, False))
            wanted.append(((order.ask.disk + 1) % cubs, order.ask, True))
    return wanted


def takes_effect(run, journal, v, beat):
    """Whether a stop of an instance is ordered in a beat, none was told before, and its tenancy is not known to be over."""
    ordered = any(order.ask is None and order.stop == v and order.beat == beat for order in run.orders)
    before = any(e.word == "gone" and e.fields[0] == v and e.beat < beat for e in journal)
    known = [tenancy_of(note_of(e)[1:]) for e in journal if has_note(e, "got", PLACED) and e.beat <= beat]
    places = [t for t in known if t.instance == v and t.slot < run.plan.slots and t.first <= t.last <= MOST_VISIT]
    over = bool(places) and due(run, places[0].slot, places[0].last + 1) <= run.reading(run.controller, beat)
    return ordered and not before and not over


def puts_are_fair(run):
    """4: Each Put finds its slot free, and is of what was ordered, in the window, by a cub that may, and once."""
    puts = [tenancy_of(e.fields).instance for _, e in log_of(run) if e.word == "put"]
    for moment, node, e in moments(run):
        if e.word == "put":
            t = tenancy_of(e.fields)
            if not (is_free(moment, t) and was_asked(run, t) and t.slot < run.plan.slots and puts.count(t.instance) <= 1
                    and in_window(run, e.reading, t.slot, t.first) and may_put(run, moment, node, t.first)):
                return False
    return True


def is_free(moment, t):
    """Whether the slot of a tenancy is free from its first visit on."""
    holder = moment.holder.get(t.slot)
    return holder is None or holder.last < t.first


def was_asked(run, t):
    """Whether a start of a tenancy was ordered: its instance and file, a visit for each block, the first on the file's disk."""
    return any(order.ask is not None and order.ask.instance == t.instance and order.ask.file == t.file
               and t.first + order.ask.count == t.last + 1 and order.ask.disk == t.first % run.disk_count
               for order in run.orders)


def may_put(run, moment, node, visit):
    """Whether a node is the cub of a visit, or the next one and believes that one dead."""
    cub = visit % run.plan.cubs
    return node == cub or (node == (visit + 1) % run.plan.cubs and (node, cub) in moment.believed)


def views_are_part(run):
    """5: Each record that a cub has is part of the schedule at each moment, and what it takes and tells follows from what it
    has."""
    return first_unlike(run) is None


def first_unlike(run):
    """The first entry, by its node and place in the journal, of which this is not so; None if it is so of each."""
    moment = Moment(run)
    for node, e in log_of(run):
        place = node, len(moment.journal[node])
        if node < run.plan.cubs and not is_local(run, moment, node, e):
            return place
        moment.take(node, e)
        parts = all(is_part(run, moment, r) for cub in range(run.plan.cubs) for r in moment.records[cub])
        if not parts:
            return place
    return None


def is_part(run, moment, r):
    """Whether the schedule has a record's tenancy and visit, or its instance was stopped a block play time before at most."""
    t = r.tenancy
    held = moment.holder.get(t.slot) == t and t.first <= r.visit <= t.last
    return held or any(v == t.instance and true_time(run, moment.beat) <= true_time(run, beat) + run.plan.play
                       for v, beat in moment.stops)


def is_local(run, moment, cub, e):
    """Whether a cub may take the record of an entry, or send its viewer state."""
    if e.word == "took":
        r = record_of(e)
        soon = due(run, r.tenancy.slot, r.visit) <= e.reading + run.plan.max_lead + run.plan.play + run.plan.skew
        whose = r.visit if r.kind == OWN else r.visit + 1
        return soon and whose % run.plan.cubs == cub and any(brings(run, cub, r, f) for f in moment.journal[cub])
    if has_note(e, "sent", STATE):
        note = note_of(e)
        return any(r.tenancy == tenancy_of(note[1:]) and r.kind == OWN and note[6] - r.visit in (0, 1)
                   for r in moment.records[cub])
    return True


def brings(run, cub, r, e):
    """Whether an entry of a cub brings it a record: a state from one of the two cubs before, or a Put of its own."""
    if has_note(e, "got", STATE):
        note, (sender, _) = note_of(e), run.ends(link_of(e)) or (run.plan.cubs, None)
        before = sender < run.plan.cubs and cub in ((sender + 1) % run.plan.cubs, (sender + 2) % run.plan.cubs)
        return before and tenancy_of(note[1:]) == r.tenancy and r.visit - note[6] in (0, 1)
    return e.word == "put" and tenancy_of(e.fields) == r.tenancy and r.visit - r.tenancy.first in (0, 1)


def nobody_comes_back(run):
    """6: A stopped instance is put within the longest way at most, and taken or sent within a block play time at most."""
    return not any(comes_back(run, moment, e) for moment, _, e in moments(run))


def comes_back(run, moment, e):
    """Whether an entry puts, takes or sends something of who was stopped too long before."""
    span, v = run.plan.play, None
    if e.word == "put":
        span, v = run.plan.delay * run.plan.beat, e.fields[0]
    elif e.word == "took":
        v = e.fields[0]
    elif has_note(e, "sent", WHOLE, PIECE):
        v = parcel_of(e).want.instance
    return any(v == stopped and true_time(run, e.beat) > true_time(run, beat) + span for stopped, beat in moment.stops)


def are_served_once(run):
    """7: What is sent of a visit is of one instance, each read is asked for once, and a piece only if the block's cub died."""
    instances, asked = {}, set()
    for moment, _, e in moments(run):
        if has_note(e, "sent", WHOLE, PIECE):
            want = parcel_of(e).want
            instances.setdefault((want.slot, want.visit), set()).add(want.instance)
        if has_note(e, "sent", ASK):
            want = want_of(e)
            if (want.slot, want.visit, want.piece) in asked:
                return False
            if want.piece >= 1 and want.visit % run.plan.cubs not in moment.dead:
                return False
            asked.add((want.slot, want.visit, want.piece))
    return all(len(served) == 1 for served in instances.values())


def beliefs_are_true(run):
    """8: A cub that is believed dead has died before."""
    return all(e.fields[0] in moment.dead for moment, _, e in moments(run) if e.word == "believed")


def failures_are_true(run):
    """9: The disk of a read that failed had got just that ask before, in a beat of one of its read faults."""
    return all(has_fault(run, moment, Want(*e.fields)) for moment, _, e in moments(run) if e.word == "readfailed")


def has_fault(run, moment, want):
    """Whether the disk of a read that failed had got just that ask before, in a beat of one of its read faults."""
    disk = (want.visit % run.disk_count + want.piece) % run.disk_count
    asks = [f.beat for f in moment.journal[run.plan.cubs + disk] if has_note(f, "got", ASK) and want_of(f) == want]
    return any(fault.disk == disk and fault.start <= beat < fault.until for beat in asks for fault in run.faults)


def are_in_turn(run):
    """11: What the viewers got of a visit came in a lower beat than anything of a later visit of the instance was sent."""
    sent = [(e.beat, parcel_of(e).want) for _, e in log_of(run) if has_note(e, "sent", WHOLE, PIECE)]
    got = [(e.beat, parcel_of(e).want) for e in run.journals[run.viewers] if has_note(e, "got", WHOLE, PIECE)]
    return not any(a.instance == b.instance and a.visit < b.visit and beat >= now for beat, a in got for now, b in sent)


def nobody_is_passed_over(run):
    """12: At each whole tick of a cub with a start that waits each visit of the disk that is in the window is taken."""
    return first_passed_over(run) is None


def first_passed_over(run):
    """The beat and the cub of the first tick at which this is not so, and the last entry up to it, by its node and its place in
    the journal, if there is one; None if it is so at each."""
    moment, entries, at = Moment(run), log_of(run), 0
    for beat in range(run.beats):
        for cub in range(run.plan.cubs):
            while at < len(entries) and (entries[at][1].beat, entries[at][0]) <= (beat, cub):
                moment.take(*entries[at])
                at += 1
            if ticks(run.life(cub), beat) and not is_patient(run, moment, cub, beat):
                last = entries[at - 1][0] if at else None
                return beat, cub, at and (last, len(moment.journal[last]) - 1)
    return None


def ticks(life, beat):
    """Whether a node ends a beat by a whole tick: below its death, or from its return on."""
    return life.death is None or beat < life.death or (life.back is not None and beat >= life.back)


def is_patient(run, moment, cub, beat):
    """Whether no start that a cub has is passed over at the end of its tick."""
    stopped = {v for v, _ in moment.stops}
    asks = [order.ask for order in run.orders if order.ask is not None]
    waiting = [ask for ask in asks if ask.instance not in moment.put and ask.instance not in stopped
               and has_start(run, moment, cub, ask)]
    return all(is_taken(run, moment, cub, beat, slot, visit) for ask in waiting for slot in range(run.plan.slots)
               for visit in visits_in_window(run, run.reading(cub, beat), slot) if visit % run.disk_count == ask.disk)


def visits_in_window(run, reading, slot):
    """The visits of a slot that are in the window at a reading."""
    first = max(0, (reading - due(run, slot, 0)) // run.plan.play)
    last = max(0, (reading + run.plan.window_a - due(run, slot, 0)) // run.plan.play + 1)
    return [visit for visit in range(first, last + 1) if in_window(run, reading, slot, visit)]


def has_start(run, moment, cub, ask):
    """Whether a cub that never died got the plain start for its disk, or the redundant one for a cub that it believes dead."""
    cubs = run.plan.cubs
    plain = ask.disk % cubs == cub and cub not in moment.dead
    redundant = (ask.disk + 1) % cubs == cub and (cub, ask.disk % cubs) in moment.believed
    return (plain and got_start(moment, cub, ask, False)) or (redundant and got_start(moment, cub, ask, True))


def got_start(moment, cub, ask, redundant):
    """Whether a cub got the start of what was asked for, the plain one or the redundant one."""
    return any(has_note(e, "got", START) and ask_of(e).instance == ask.instance and is_redundant(e) == redundant
               for e in moment.journal[cub])


def is_taken(run, moment, cub, beat, slot, visit):
    """Whether the slot's tenancy has a visit, or the cub has a record there of who was stopped a block play time ago at most."""
    t = moment.holder.get(slot)
    held = t is not None and t.first <= visit <= t.last
    return held or any(r.tenancy.slot == slot and r.visit == visit and r.tenancy.instance == v
                       and true_time(run, beat) <= true_time(run, stop) + run.plan.play
                       for r in moment.records[cub] for v, stop in moment.stops)


CLAUSES = (is_carried, is_timed, is_commanded, puts_are_fair, views_are_part, nobody_comes_back, are_served_once,
           beliefs_are_true, failures_are_true, delivered.are_served, are_in_turn, nobody_is_passed_over)


def first_false(run):
    """The number of the first clause that is false of a run; 0 if all hold."""
    return next((number for number, holds in enumerate(CLAUSES, 1) if not holds(run)), 0)
