"""Where a clause of `tiger audit` is broken, by the definitions, for tools/audit-mutations: of each clause the places that
the program's second line may name. They stand in audit_verdict `Places`; those of clauses 1 to 3 in audit_orders,
that of clause 10 in audit_blocks, and that of clause 12 in audit_waits.

It shares no code with the crates. Python 3.8 or later, and nothing but its standard library.
"""
import clauses
import delivered
from kept_runs import ASK, PIECE, START, WHOLE, Want, has_note, link_of, note_of, parcel_of, tenancy_of, want_of
from moments import in_window, moments, true_time


class Lines:
    """The lines of a run's text, counted from 1: those of entries, orders and deaths."""

    def __init__(self, run):
        self.deaths = {cub: 6 + at for at, cub in enumerate(sorted(run.lives))}
        self.orders = 6 + len(run.lives) + len(run.faults) + len(run.files)
        self.nodes, line = [], self.orders + len(run.orders)
        for journal in run.journals:
            self.nodes.append(line + 1)
            line += 1 + len(journal)

    def entry(self, place):
        """The words for an entry, by its node and its place in the journal."""
        return f"node {place[0]}, line {self.nodes[place[0]] + place[1]}"

    def order(self, at):
        """The words for an order."""
        return f"order {at}, line {self.orders + at}"


def places_of(run, clause):
    """The words of all places at which a clause may be said to be broken, if it is and those before it hold."""
    lines = Lines(run)
    if clause in (1, 3):
        return set((uncarried, uncommanded)[clause == 3](run, lines))
    if clause == 2:
        return untimed(run, lines)
    if clause == 12:
        return {passed_over(run, lines)}
    return {lines.entry(place) for place in [FIRSTS[clause](run)] if place is not None}


# 1: an entry that stands at no end of its link, the first one of a link that was got and is not the next that was sent, and
# what was sent, not got, and may not be lost.

def uncarried(run, lines):
    """The places of clause 1."""
    streams = {}
    for node, journal in enumerate(run.journals):
        for at, e in enumerate(journal):
            if e.word in ("got", "sent"):
                ends = run.ends(link_of(e))
                if ends is None or ends[e.word == "got"] != node:
                    yield lines.entry((node, at))
                back = ends and run.life(ends[1]).back
                is_later = back is not None and back <= e.beat
                streams.setdefault((link_of(e), is_later), {"sent": [], "got": []})[e.word].append(((node, at), e))
    for (link, _), stream in streams.items():
        yield from map(lines.entry, uncarried_in(run, link, stream["sent"], stream["got"]))


def uncarried_in(run, link, sent, got):
    """Those in what was sent and what was got on a link before its receiver's return, or from then on."""
    for at, (place, e) in enumerate(got):
        if at >= len(sent) or note_of(sent[at][1]) != note_of(e) or not (
                sent[at][1].beat + 1 <= e.beat <= sent[at][1].beat + run.plan.delay):
            yield place
            break
    ends = run.ends(link)
    for place, e in sent[len(got):]:
        if ends and not clauses.may_be_lost(run, run.life(ends[1]), e.beat):
            yield place


# 2: the journals one after another, then neighbours that die, then returns, and at last the first reading that no clock shows.

def untimed(run, lines):
    """The places of clause 2."""
    for node, journal in enumerate(run.journals):
        found = flaw_of(run, run.life(node), journal)
        if found == len(journal):
            return {f"node {node}, line {lines.deaths[node]}, whose death is missing"}
        if found is not None:
            return {lines.entry((node, found))}
    for cub in range(run.plan.cubs):
        if cub in run.lives and (cub + 1) % run.plan.cubs in run.lives:
            return {f"cub {cub}, line {lines.deaths[cub]}, whose neighbour dies too"}
    for node, journal in enumerate(run.journals):
        found = untold_return(run, run.life(node), journal)
        if found:
            return {lines.entry((node, at)) for at in found}
    wrong = first_of(run, lambda moment, node, e: e.reading != run.reading(node, e.beat))
    return {lines.entry(wrong)} if wrong else set()


def flaw_of(run, life, journal):
    """The first entry that may not come next; the journal's length if its death is missing; else None."""
    last, died = (0, 0), False
    for at, e in enumerate(journal):
        true = true_time(run, e.beat)
        in_order = last[0] <= e.beat < run.beats and last[1] <= e.reading and true <= e.reading <= true + run.plan.skew
        if not in_order or not may_stand(life, died, e):
            return at
        last, died = (e.beat, e.reading), died or e.word == "died"
    return len(journal) if life.death is not None and not died else None


def may_stand(life, died, e):
    """Whether an entry may come next, as deaths go, behind the node's death or before it."""
    if life.death is None or died:
        return e.word != "died" and (life.death is None or (life.back is not None and life.back <= e.beat))
    if e.word == "died":
        return e.beat == life.death
    return e.beat < life.death if life.left is None else e.beat <= life.death


def untold_return(run, life, journal):
    """The first entry that may not stand behind the one before it, as returns go, and a death before it; none if all may."""
    died = False
    for at, e in enumerate(journal):
        if (e.word == "returned") != died or (died and life.back != e.beat):
            return [at - 1, at] if died else [at]
        died = e.word == "died"
    return [len(journal) - 1] if died and life.back is not None and life.back < run.beats else []


# 3: a stop that another node tells; of the controller a start that is not the next one due, an order whose starts are not all
# sent, a stop that does not take effect or was told, and an order of a stop that takes effect and is not told.

def uncommanded(run, lines):
    """The places of clause 3."""
    journal = run.journals[run.controller]
    for node, other in enumerate(run.journals):
        yield from (lines.entry((node, at)) for at, e in enumerate(other) if e.word == "gone" and node != run.controller)
    for at, e in enumerate(journal):
        if has_note(e, "sent", START):
            due, sent = clauses.starts_ordered(run, e.beat), clauses.starts_sent(run, journal[:at + 1], e.beat)
            if is_front(sent[:-1], due) and not is_front(sent, due):
                yield lines.entry((run.controller, at))
        if e.word == "gone" and not (clauses.takes_effect(run, journal, e.fields[0], e.beat) and not any(
                f.word == "gone" and f.fields == e.fields for f in journal[:at])):
            yield lines.entry((run.controller, at))
    for at, order in enumerate(run.orders):
        if order.ask is not None and lacks_start(run, journal, at) or order.ask is None and lacks_stop(run, journal, order):
            yield lines.order(at)


def is_front(front, whole):
    """Whether a list is the front of another."""
    return whole[:len(front)] == front


def lacks_start(run, journal, at):
    """Whether of an order's beat the starts of the orders before it were sent, and its own were not, or not both."""
    beat = run.orders[at].beat
    before = sum(order.beat == beat and order.ask is not None for order in run.orders[:at])
    sent = clauses.starts_sent(run, journal, beat)
    return is_front(sent, clauses.starts_ordered(run, beat)) and 2 * before <= len(sent) < 2 * before + 2


def lacks_stop(run, journal, order):
    """Whether the stop of an order takes effect in its beat and is not told in it."""
    told = any(e.word == "gone" and e.fields[0] == order.stop and e.beat == order.beat for e in journal)
    return clauses.takes_effect(run, journal, order.stop, order.beat) and not told


# 4 to 11: the last entry of the least front of the run, in the order of moments, of which the clause is false.

def first_of(run, breaks):
    """The first entry, by its node and place, that breaks something at the moment before it; None if none does."""
    for moment, node, e in moments(run):
        if breaks(moment, node, e):
            return node, len(moment.journal[node])
    return None


def unfair_put(run):
    """4: A Put that breaks the clause, be it the second one of its instance."""
    def breaks(moment, node, e):
        t = tenancy_of(e.fields) if e.word == "put" else None
        return t and not (clauses.is_free(moment, t) and clauses.was_asked(run, t) and t.instance not in moment.put
                          and t.slot < run.plan.slots and in_window(run, e.reading, t.slot, t.first)
                          and clauses.may_put(run, moment, node, t.first))
    return first_of(run, breaks)


def foreign_view(run):
    """5: An entry that may not stand behind those before it, or behind which some record is no part of the schedule."""
    return clauses.first_unlike(run)


def return_of_stopped(run):
    """6: What is put, taken or sent of who was stopped."""
    return first_of(run, lambda moment, node, e: clauses.comes_back(run, moment, e))


def second_service(run):
    """7: What is sent of a second instance at a visit, or a read that is asked for again, or a piece of a living cub's block."""
    instances, asked = {}, set()

    def breaks(moment, node, e):
        if has_note(e, "sent", WHOLE, PIECE):
            want = parcel_of(e).want
            return instances.setdefault((want.slot, want.visit), want.instance) != want.instance
        if not has_note(e, "sent", ASK):
            return False
        want, before = want_of(e), len(asked)
        asked.add((want.slot, want.visit, want.piece))
        return len(asked) == before or (want.piece >= 1 and want.visit % run.plan.cubs not in moment.dead)
    return first_of(run, breaks)


def false_belief(run):
    """8: A belief of a cub that had not died."""
    return first_of(run, lambda moment, node, e: e.word == "believed" and e.fields[0] not in moment.dead)


def false_failure(run):
    """9: A read that failed without a fault."""
    return first_of(run, lambda moment, node, e: e.word == "readfailed" and not clauses.has_fault(run, moment, Want(*e.fields)))


def unserved(run):
    """10: A Put of whose settled visits one was neither delivered nor is excused, or what the viewers got of no visit."""
    puts = [tenancy_of(e.fields) for journal in run.journals for e in journal if e.word == "put"]

    def breaks(moment, node, e):
        if e.word == "put":
            t = tenancy_of(e.fields)
            return not all(delivered.is_served(run, puts, t.instance, visit) for visit in delivered.settled_visits(run, t))
        is_got = node == run.viewers and has_note(e, "got", WHOLE, PIECE)
        return is_got and not delivered.is_of_visit(run, puts, parcel_of(e))
    return first_of(run, breaks)


def out_of_turn(run):
    """11: What the viewers got, or what was sent, of a visit beside something of a later one."""
    sent, got = [], []

    def breaks(moment, node, e):
        if not has_note(e, "sent", WHOLE, PIECE) and not (node == run.viewers and has_note(e, "got", WHOLE, PIECE)):
            return False
        one = e.beat, parcel_of(e).want
        (sent if e.word == "sent" else got).append(one)
        return any(a.instance == b.instance and a.visit < b.visit and beat >= now
                   for beat, a in ([one] if e.word == "got" else got) for now, b in (sent if e.word == "got" else [one]))
    return first_of(run, breaks)


FIRSTS = {4: unfair_put, 5: foreign_view, 6: return_of_stopped, 7: second_service, 8: false_belief, 9: false_failure,
          10: unserved, 11: out_of_turn}


# 12: the first tick at which a start is passed over.

def passed_over(run, lines):
    """The place of clause 12; no words if nobody is passed over."""
    found = clauses.first_passed_over(run)
    if found is None:
        return ""
    beat, cub, last = found
    return f"the tick of cub {cub} in beat {beat}" + (f", behind line {lines.entry(last).rpartition(' ')[2]}" if last else "")
