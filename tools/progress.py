"""What tools/build says of how far it is: how many crates are proved, and how long the others may take.

Python 3.8 or later, and nothing but its standard library.
"""
import os
import re
import time

import crates
from launch import say

LINE_EACH = 30  # seconds after which a silent build says how far it is
LINES_APART = 5  # seconds between two lines on crates that were proved meanwhile
MEMORY = 2 << 30  # bytes that the check of one crate may take
START = 120  # lines of code that cost as much as the beginning of a proof; definitions and proofs cost little


class Progress:
    """How many of the crates that the program reaches are proved, and about how long the others may take."""

    def __init__(self):
        self.below = crates.below_program()
        self.names = set(self.below)
        self.work = {name: START + crates.lines_of(name, ".rt") for name in self.names}
        self.begun, self.kept, self.proved, self.last = time.monotonic(), set(), set(), None
        self.is_linking, self.is_waiting, self.is_shown, self.last_line = False, False, True, self.begun

    def takes(self, crate):
        """Notes that an earlier run proved the crate."""
        if crate in self.names:
            self.kept.add(crate)
            self.last, self.is_shown = crate, False

    def proves(self, crate):
        """Notes that this run proved the crate."""
        if crate in self.names:
            self.kept.discard(crate)
            self.proved.add(crate)
            self.is_shown = False

    def waits(self):
        """Says once that another run proves the same."""
        if not self.is_waiting:
            self.is_waiting = True
            say("another run on this machine proves the same; waiting for it, to take what it proves")

    def links(self):
        """Says that the program is made now."""
        if not self.is_shown:
            self.show()
        self.is_linking = True
        say("making the program")

    def patience(self):
        """The seconds of silence after which there is something to say."""
        return LINE_EACH if self.is_shown else max(1, self.last_line + LINES_APART - time.monotonic())

    def show(self):
        """Says how far the build is."""
        self.is_shown, self.last_line = True, time.monotonic()
        if self.is_linking:
            say(f"making the program, {minutes(time.monotonic() - self.begun)} since the build began")
        else:
            say(f"proved {len(self.kept | self.proved)} of {len(self.names)} crates{self.left()}")

    def left(self):
        """How long the rest may take, if each processor goes on as fast as it went so far."""
        new = self.names - self.kept
        rest = new - self.proved
        whole, to_do = self.span(new), self.span(rest)
        if not rest or whole == to_do:
            return ""
        return f", about {minutes(to_do * (time.monotonic() - self.begun) / (whole - to_do))} left"

    def span(self, todo):
        """How long these crates take on all processors, in units of work: each begins once those below it are done."""
        behind = self.chains(todo)
        free, ends, waiting = [0] * processors(), {}, sorted(todo, key=lambda it: -behind[it])
        while waiting:
            ready = {it: max((ends[low] for low in self.below[it] if low in todo), default=0)
                     for it in waiting if all(low in ends for low in self.below[it] if low in todo)}
            free.sort()
            soonest = min(max(begin, free[0]) for begin in ready.values())
            crate = next(it for it in waiting if it in ready and max(ready[it], free[0]) == soonest)
            free[0] = ends[crate] = soonest + self.work[crate]
            waiting.remove(crate)
        return max(ends.values(), default=0)

    def chains(self, todo):
        """For each of these crates the work of the longest chain from it up to the program."""
        above = {name: [it for it in todo if name in self.below[it]] for name in todo}
        found = {}

        def chain(name):
            if name not in found:
                found[name] = self.work[name] + max(map(chain, above[name]), default=0)
            return found[name]

        return {name: chain(name) for name in todo}


def minutes(seconds):
    """A time in whole minutes, at least one."""
    number = max(1, round(seconds / 60))
    return f"{number} minute{'s' if number > 1 else ''}"


def processors():
    """How many processors there are to use."""
    found = len(os.sched_getaffinity(0))
    quota = numbers("/sys/fs/cgroup/cpu.max")
    return max(1, min(found, quota[0] // quota[1])) if len(quota) == 2 else found


def lanes():
    """How many crates `rt all` may take up at a time, if the free memory holds them: half as many again as processors,
    since some of those that it has taken up wait for the crates below them."""
    free = numbers("/proc/meminfo", "MemAvailable:")
    memory = min([1024 * it for it in free] + numbers("/sys/fs/cgroup/memory.max"), default=MEMORY)
    return max(1, min(processors() * 3 // 2, memory // MEMORY))


def numbers(path, word=""):
    """The numbers in the line of a file that begins with a word; none if there is no such line."""
    try:
        with open(path) as file:
            line = next((line for line in file if line.startswith(word)), "")
    except OSError:
        line = ""
    return [int(it) for it in re.findall(r"\b\d+\b", line)]
