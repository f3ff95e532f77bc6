"""Telling changes of kept runs, for tools/audit-mutations: for each clause of an audit some, each of which is meant to make
that clause false and those before it true, or to stand just beside what does. tools/clauses.py says what a change made.

A change takes a generator and a run, and changes the run; NoChange is raised if the run offers no place for it.

Python 3.8 or later, and nothing but its standard library.
"""
import course_changes as course
import schedule_changes as schedule
import service_changes as service
from changing_runs import STEPS, entry_at, pairs, pick, places, with_fields, with_note, with_plan, without
from kept_runs import note_of


def other_field(rng, run):
    """A number of some entry is one more or less."""
    place = pick(rng, places(run, lambda e: len(e.fields) > 0))
    fields = list(entry_at(run, place).fields)
    at = rng.randrange(len(fields))
    fields[at] = max(0, fields[at] + rng.choice(STEPS))
    with_fields(run, place, fields)


def other_pair(rng, run):
    """A number of a note is one more or less, where it is sent and where it is got."""
    pair = pick(rng, [pair for pair in pairs(run) if len(entry_at(run, pair[0]).fields) > 2])
    note = list(note_of(entry_at(run, pair[0])))
    at = rng.randrange(1, len(note))
    note[at] = max(0, note[at] + rng.choice(STEPS))
    with_note(run, pair, note)


def without_pair(rng, run):
    """A note is neither sent nor got."""
    without(run, pick(rng, pairs(run)))


def without_entry(rng, run):
    """An entry is not there."""
    without(run, [pick(rng, places(run, lambda e: True))])


def other_plan(rng, run):
    """A number of the plan is a little more or less, and the plan still is one."""
    key = rng.choice(("play", "window_a", "window_b", "read_lead", "min_lead", "max_lead", "deadman", "skew", "pieces", "delay"))
    with_plan(run, **{key: max(0, getattr(run.plan, key) + rng.choice((-1000, -1, 1, 1000)))})


OF_CLAUSE = {
    1: (course.loses_got, course.loses_sent, course.gets_other, course.gets_in_beat, course.gets_twice,
        course.gets_in_wrong_order, course.gets_elsewhere, course.goes_on, course.ends_on_the_way),
    2: (course.reads_beside, course.falls, course.loses_death, course.dies_too, course.dies_twice, course.dies_beside,
        course.dies_uncut, course.neighbour_dies, course.two_neighbours_die, course.other_offset),
    3: (course.loses_gone, course.gone_unasked, course.gone_late, course.gone_elsewhere, course.ordered_beside,
        course.starts_less, course.starts_otherwise, course.starts_swapped, course.stop_at_the_edge, course.stop_unheeded),
    4: (schedule.puts_other, schedule.puts_taken, schedule.puts_twice, schedule.puts_elsewhere, schedule.puts_late,
        schedule.puts_behind, schedule.window_at_the_edge),
    5: (schedule.takes_other, schedule.takes_elsewhere, schedule.takes_early, schedule.loses_put, schedule.keeps,
        schedule.keeps_to_the_edge, schedule.drops_early, schedule.tells_other, schedule.loses_states,
        schedule.leads_at_the_edge),
    6: (schedule.sends_after_stop, schedule.takes_after_stop, schedule.puts_after_stop, schedule.stops_the_unput),
    7: (service.asks_twice, service.asks_for_piece, service.asks_for_dead, service.serves_two),
    8: (service.believes_living, service.believes_soon, service.believes_other),
    9: (service.fails_unfaulted, service.fails_at_the_edge, service.loses_fault, service.fails_other),
    10: (service.loses_block, service.sends_beside, service.sends_twice, service.sends_other, service.sends_elsewhere,
        service.sends_astray, service.loses_excuse, service.loses_of_dead, service.takes_over_at_the_edge,
        service.is_back_at_the_edge, service.settled_at_the_edge, service.stops_at_the_edge),
    11: (service.sends_next_early, service.sends_last_late),
    12: (schedule.starts_unheeded, schedule.starts_forgotten, schedule.starts_in_other_window),
    0: (other_field, other_pair, without_pair, without_entry, other_plan),
}
