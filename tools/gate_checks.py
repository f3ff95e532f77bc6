"""Checks of .ci/run for tools/check-program, in a copy with stand-ins for all of its parts: it passes if each part does, fails
with the status of the first one that fails, and a signal ends it and the part that runs, and counts as a failure."""
import os
import shutil
import subprocess

import program
from ending_checks import ends, heeds, lines_of

PARTS = ("rt", "tools/wrong-bodies", "tools/check-program", "tools/conformance")  # in the order in which they run
SAYS = {"rt": "rt: low proved\nlogic=proved functions=3 sum=0\n5 passed, 0 failed",
        "tools/wrong-bodies": "wrong-bodies: 2 refused, 0 not refused",
        "tools/check-program": "check-program: 4 passed, 0 failed", "tools/conformance": "conformance: 1 passed, 0 failed"}
ALL = b"1 crates, 3 proofs, 2 edits and 6 cases passed\n13 passed, 0 failed\n"  # (conformance runs twice)


class Gate:
    """A copy of the gate, of whose parts each says what it says if it passes."""

    def __init__(self, top):
        self.top, self.begun = top, os.path.join(top, "begun")
        for folder in (".ci", "tools", "on-path"):
            os.makedirs(os.path.join(top, folder))
        shutil.copy(os.path.join(program.TOP, ".ci", "run"), os.path.join(top, ".ci"))
        self.write("tools/built.sh", "sources_sum() { echo 1; }\nrecord() { [ \"$1\" = 1 ]; }\n")
        for part in PARTS:
            self.has(part, "exit 0")

    def write(self, name, text):
        """Writes a file that may be run."""
        path = os.path.join(self.top, name)
        with open(path, "w", encoding="ascii") as file:
            file.write(text)
        os.chmod(path, 0o755)

    def has(self, part, end):
        """Has a part say what it says, and end so."""
        self.write("on-path/rt" if part == "rt" else part, f"#!/bin/sh\necho '{SAYS[part]}'\n{end}\n")

    def start(self):
        """Starts the gate."""
        path = os.path.join(self.top, "on-path") + os.pathsep + os.environ["PATH"]
        return program.Interrupt.begin([os.path.join(self.top, ".ci", "run")], stdin=subprocess.DEVNULL,
                                       stdout=subprocess.PIPE, stderr=subprocess.PIPE, preexec_fn=heeds,
                                       env={**os.environ, "PATH": path})


def last_lines(text):
    """The last two lines of some bytes."""
    return b"".join(text.splitlines(True)[-2:])


def failing(gate):
    """Each part that fails, is not there or is ended by a signal makes the gate fail with its status."""
    for part in PARTS:
        for end, status in (("exit 9", 9), ("kill -KILL $$", 137), ("kill -TERM $$", 143)):
            gate.has(part, end)
            got = program.ended(gate.start(), program.WAIT)
            is_told = last_lines(got.out).endswith(b" passed, 1 failed\n")
            yield f"the gate if {part} has '{end}'", "" if got.status == status and is_told else f"status {got.status}"
        gate.has(part, "exit 0")


def ended_by_signals(gate):
    """A signal to the gate alone, or to all that it runs, ends both, and the gate fails."""
    for part in PARTS[::3]:
        gate.has(part, f"sleep 600 & echo $$ $! >'{gate.begun}'\nwait")
        for number in program.ENDING:
            for send in (os.kill, os.killpg):
                started = gate.start()
                processes = lines_of(gate.begun)
                send(started.pid, number)
                got = program.ended(started, program.WAIT)
                left = [it for it in processes if not ends(int(it))]
                os.remove(gate.begun)
                good = got.status == 128 + number and last_lines(got.out).endswith(b" passed, 1 failed\n") and processes
                yield (f"{number.name} by {send.__name__} to the gate at {part}",
                       "" if good and not left else f"status {got.status}, {last_lines(got.out).decode()}, {left}")
        gate.has(part, "exit 0")


def all_of_them(folder):
    """Each check's name, and what it found; nothing if all is well."""
    gate = Gate(os.path.join(folder, "gate"))
    got = program.ended(gate.start(), program.WAIT)
    yield "the gate", "" if got.status == 0 and last_lines(got.out) == ALL else f"status {got.status}, '{got.out.decode()}'"
    yield from failing(gate)
    yield from ended_by_signals(gate)
