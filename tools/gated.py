"""The edits of wrong-bodies/ that the gate tries, for tools/wrong-bodies --gate.

Such an edit begins with the line that MARK is, and changes the body of one function and nothing else. Those of a crate are
tried in one check of these functions alone, over the libraries that `rt ci` left, on each processor one crate. What was
refused is kept on this machine by all that its check read, so a gate that proves nothing anew tries nothing anew.
"""
import os
import shutil
import tempfile

import program
from prover import NotBuilt, Refusals
from together import Edit, bodies, groups, refused_alone

MARK = "# The gate tries this edit.\n"


def is_gated(path):
    """Whether the gate tries an edit."""
    with open(path, encoding="utf-8") as file:
        return file.readline() == MARK


def gated_in(folder):
    """The edits below wrong-bodies/ that the gate tries, by crate."""
    found = {}
    for crate in sorted(os.listdir(folder)):
        at = os.path.join(folder, crate)
        paths = [os.path.join(at, it) for it in sorted(os.listdir(at))] if os.path.isdir(at) else []
        marked = [it for it in paths if it.endswith(".edit") and is_gated(it)]
        if marked:
            found[crate] = marked
    return found


class Trial:
    """A crate's edits that the gate tries, and what became of each."""

    def __init__(self, prover, crate, paths, room):
        self.prover, self.crate, self.paths, self.room = prover, crate, paths, room
        self.told, self.kept = {}, 0

    def run(self):
        """Tries those that are not known to be refused, and keeps what is refused."""
        refusals = Refusals()
        try:
            stamp = self.prover.stamp(self.crate)
        except NotBuilt as lacking:
            self.told = {os.path.basename(it): f"not tried: {lacking}" for it in self.paths}
            return self
        known = {it: refusals.told(stamp, it) for it in self.paths}
        self.kept = sum(said is not None for said in known.values())
        self.told = {os.path.basename(path): said for path, said in known.items() if said is not None}
        found = list(bodies(self.prover.folder(self.crate), (Edit(path) for path, said in known.items() if said is None)))
        for group in groups(found):
            self.told.update(self.refused(group))
        for path, said in known.items():
            if said is None and os.path.basename(path) in self.told:
                refusals.keep(stamp, path, self.told[os.path.basename(path)])
        return self

    def refused(self, group):
        """What is said of each edit of a group that is refused, with the others or by itself."""
        told = refused_alone(self.prover, self.crate, group, self.room)
        for one in group if len(group) > 1 else ():
            if one[0].name not in told:
                told.update(refused_alone(self.prover, self.crate, [one], self.room))
        return told

    def say(self, width):
        """Writes a line for each edit; how many were refused."""
        refused = 0
        for path in self.paths:
            name = os.path.basename(path)
            said = self.told.get(name, "not refused: its function is still proved, or it changes more than one body")
            is_refused = name in self.told and not said.startswith("not tried")
            refused += is_refused
            print(f"wrong-bodies: {self.crate}/{name}: {'refused: ' * is_refused}{said}"[:width], flush=True)
        return refused


def try_gated(prover, found, width):
    """Tries the edits by crate, and says what became of each: how many were refused, how many there are, and how many were
    refused by an earlier run of the same. If a signal comes, those of the crates that were not tried count as not refused."""
    room = tempfile.mkdtemp(prefix="gate-edits-")
    try:
        trials = [Trial(prover, crate, paths, room) for crate, paths in found.items()]
        refused = known = 0
        for trial in program.in_turn(Trial.run, trials, os.cpu_count()):
            refused += trial.say(width)
            known += trial.kept
    finally:
        shutil.rmtree(room, ignore_errors=True)
    return refused, sum(map(len, found.values())), known
