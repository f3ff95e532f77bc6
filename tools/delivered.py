"""Clause 10 of `tiger audit`, for tools/clauses.py: that each settled block of each viewer came or is excused, and that
nothing else came. The definitions stand in run_claims `Served`, and in run_model `Served` and `Excuses`.

Python 3.8 or later, and nothing but its standard library.
"""
from kept_runs import PIECE, WHOLE, Span, Want, has_note, parcel_of, tenancy_of
from moments import due, true_time


def are_served(run):
    """10: Each settled visit of each Put was delivered or is excused, and the viewers got nothing but what such visits want."""
    puts = [tenancy_of(e.fields) for journal in run.journals for e in journal if e.word == "put"]
    settled = all(is_served(run, puts, t.instance, visit) for t in puts for visit in settled_visits(run, t))
    got = [parcel_of(e) for e in run.journals[run.viewers] if has_note(e, "got", WHOLE, PIECE)]
    return settled and all(is_of_visit(run, puts, parcel) for parcel in got)


def is_served(run, puts, v, visit):
    """Whether the block of a visit was delivered or is excused."""
    return is_delivered(run, puts, v, visit) or is_excused(run, puts, v, visit)


def settled_visits(run, t):
    """The visits of a tenancy that are due two block play times before the end of the run, or earlier."""
    visit = t.first
    while visit <= t.last and due(run, t.slot, visit) + 2 * run.plan.play <= true_time(run, run.beats):
        yield visit
        visit += 1


def with_visit(puts, v, visit):
    """The tenancies that were put of an instance and have a visit."""
    return [t for t in puts if t.instance == v and t.first <= visit <= t.last]


def block_of(run, t, visit):
    """The bytes of the block of a tenancy's visit; None if its file has no such block."""
    block, size = visit - t.first, run.plan.block
    if t.file >= len(run.files) or block * size >= run.files[t.file].bytes:
        return None
    return Span(t.file, block * size, min((block + 1) * size, run.files[t.file].bytes) - block * size)


def part_of(run, t, visit, piece):
    """The bytes of a block, as piece 0, or of one of its pieces; None if there is no such block."""
    block, pieces = block_of(run, t, visit), run.plan.pieces
    if block is None or piece == 0:
        return block
    start, end = (piece - 1) * block.bytes // pieces, piece * block.bytes // pieces
    return Span(block.file, block.start + start, end - start)


def want_at(t, visit, piece):
    """What a tenancy wants at a visit."""
    return Want(t.instance, t.slot, visit, t.file, visit - t.first, piece)


def is_of_visit(run, puts, parcel):
    """Whether what the viewers got is exactly what a tenancy that was put wants at a visit."""
    want, is_whole = parcel.want, parcel.note[0] == WHOLE
    numbered = want.piece == 0 if is_whole else 1 <= want.piece <= run.plan.pieces
    return numbered and any(want == want_at(t, want.visit, want.piece) and parcel.span == part_of(run, t, want.visit, want.piece)
                            for t in with_visit(puts, want.instance, want.visit))


def was_sent(run, cub, parcel, time):
    """Whether a cub sent a parcel in the beat that it names, which is at most the skew before a time and less than a beat
    after it."""
    sent = any(e.beat == parcel.sent and e.word == "sent" and e.fields == (parcel.link, *parcel.note)
               for e in run.journals[cub])
    beat = true_time(run, parcel.sent)
    return sent and time <= beat + run.plan.skew and beat < time + run.plan.beat


def leaving(run, t, visit, piece):
    """When a piece of a block leaves."""
    return due(run, t.slot, visit) + (piece - 1) * run.plan.play // run.plan.pieces


def is_delivered(run, puts, v, visit):
    """Whether the block of a visit came once, whole and alone, or in all its pieces, each once, and was sent when it was due."""
    got = [e for e in run.journals[run.viewers] if has_note(e, "got", WHOLE, PIECE)]
    mine = [parcel_of(e) for e in got if (parcel_of(e).want.instance, parcel_of(e).want.visit) == (v, visit)]
    wholes = [parcel for parcel in mine if parcel.note[0] == WHOLE]
    pieces = [parcel for parcel in mine if parcel.note[0] == PIECE]
    for t in with_visit(puts, v, visit):
        if block_of(run, t, visit) is not None:
            if len(wholes) == 1 and not pieces and came(run, t, visit, 0, wholes[0]):
                return True
            if not wholes and all(piece_came(run, t, visit, piece, pieces) for piece in range(1, run.plan.pieces + 1)):
                return True
    return False


def piece_came(run, t, visit, piece, pieces):
    """Whether a piece is one of those that came, once."""
    numbered = [parcel for parcel in pieces if parcel.want.piece == piece]
    return len(numbered) == 1 and came(run, t, visit, piece, numbered[0])


def came(run, t, visit, piece, parcel):
    """Whether a parcel is a block, as piece 0, or a piece of one, as it is to be, sent in time by the cub whose turn it was."""
    time = due(run, t.slot, visit) if piece == 0 else leaving(run, t, visit, piece)
    return (parcel.want == want_at(t, visit, piece) and parcel.span == part_of(run, t, visit, piece)
            and was_sent(run, (visit + piece) % run.plan.cubs, parcel, time))


def is_excused(run, puts, v, visit):
    """Whether the block of a visit may be missing: by its read, a lost piece, the death of its cub, or a stop."""
    cub = visit % run.plan.cubs
    return any((cub, 0) in failed_reads(run, v, visit) or is_lost_in_pieces(run, t, visit)
               or is_lost_in_death(run, t, visit) or was_stopped(run, t, visit) for t in with_visit(puts, v, visit))


def failed_reads(run, v, visit):
    """The reads of a visit of an instance that failed: at which node, and of which piece."""
    return {(node, e.fields[5]) for node, journal in enumerate(run.journals) for e in journal
            if e.word == "readfailed" and (e.fields[0], e.fields[2]) == (v, visit)}


def deaths_of(run, cub):
    """The true times at which a cub died."""
    return [true_time(run, e.beat) for e in run.journals[cub] if e.word == "died"]


def was_back(run, cub, span, time):
    """Whether a time is a span behind the reading of a cub's return, or later."""
    return any(e.word == "returned" and e.reading + span <= time for e in run.journals[cub])


def takeover(run):
    """How long a death may go unnoticed."""
    p = run.plan
    return 2 * p.delay * p.beat + 3 * p.skew + p.deadman + p.read_lead + 2 * p.beat + 1


def is_unserved_back(run, t, visit):
    """Whether the cub of a visit was not back in time to serve it, or the visit is its tenancy's first."""
    span = run.plan.max_lead + 6 * run.plan.play
    return visit == t.first or not was_back(run, visit % run.plan.cubs, span, due(run, t.slot, visit))


def is_lost_in_death(run, t, visit):
    """Whether the block's cub died before it had served the visit, too late for the next one to take over, and stayed away."""
    time = due(run, t.slot, visit)
    died = any(death < time + run.plan.beat and time < death + takeover(run) for death in deaths_of(run, visit % run.plan.cubs))
    return died and is_unserved_back(run, t, visit)


def is_lost_in_pieces(run, t, visit):
    """Whether the block's cub died long before and stayed away, and a piece was lost."""
    time = due(run, t.slot, visit)
    died = any(death + takeover(run) <= time for death in deaths_of(run, visit % run.plan.cubs))
    return (died and is_unserved_back(run, t, visit)
            and any(is_piece_lost(run, t, visit, piece) for piece in range(1, run.plan.pieces + 1)))


def is_piece_lost(run, t, visit, piece):
    """Whether a piece's read failed anywhere, or its cub died before it had left and was not back in time to let it in."""
    cub, time = (visit + piece) % run.plan.cubs, leaving(run, t, visit, piece)
    died = any(death < time + run.plan.beat for death in deaths_of(run, cub))
    away = not was_back(run, cub, run.plan.max_lead + 3 * run.plan.play + run.plan.skew, time)
    return any(number == piece for _, number in failed_reads(run, t.instance, visit)) or (died and away)


def was_stopped(run, t, visit):
    """Whether the instance was stopped less than a block play time after the visit was due, or before."""
    return any(e.word == "gone" and e.fields[0] == t.instance and true_time(run, e.beat) < due(run, t.slot, visit) + run.plan.play
               for journal in run.journals for e in journal)
