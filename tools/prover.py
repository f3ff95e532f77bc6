"""Checks of some functions of a crate by the kit's `rattle`, over the libraries that `rt ci` left in crates/*/out/rlib.

`rt check` builds the libraries of a fresh copy once more, and `rt must-fail` proves a whole crate for each edit. A check of
a few functions reads no other proof, so it takes seconds.
"""
import hashlib
import os
import shutil
import subprocess

import program
from crates import PARTS, used_by
from launch import TOP

KEPT = os.path.join(os.environ.get("XDG_CACHE_HOME") or os.path.expanduser("~/.cache"), "tiger-edits")
READ = 1 << 20


class NotBuilt(Exception):
    """A library below a crate has no built form where `rt ci` leaves it."""


def kit():
    """The folder of the kit whose `rt` is on the path."""
    return os.path.dirname(os.path.dirname(os.path.realpath(shutil.which("rt"))))


def sum_of(paths):
    """One checksum of the files at these paths, with their names in the order given."""
    total = hashlib.sha256()
    for name, path in paths:
        total.update(f"{name}\n".encode())
        with open(path, "rb") as file:
            for content in iter(lambda: file.read(READ), b""):
                total.update(content)
    return total.hexdigest()


class Prover:
    """The checks of the crates of a repository, of which each library below stands at crates/NAME/out/rlib."""

    def __init__(self, top=TOP):
        self.top, self.kit, self.used = top, kit(), used_by()
        self.rattle = os.path.join(self.kit, "bin", "rattle")

    def folder(self, crate):
        return os.path.join(self.top, "crates", crate)

    def library(self, crate):
        return os.path.join(self.folder(crate), "out", "rlib", f"{crate}.rlib")

    def below(self, crate):
        """The crates of the repository that a crate stands on, each once, the lowest first."""
        found = []
        for name in (it for it in self.used[crate] if it in self.used):
            found += [it for it in (*self.below(name), name) if it not in found]
        return found

    def words(self, crate):
        """The command that checks a crate, to be run where its src/ stands."""
        root = "main" if os.path.isfile(os.path.join(self.folder(crate), "src", "main.rt")) else "lib"
        words = [self.rattle, "check", "--crate-name", crate, f"src/{root}.rt"]
        for name in ("std", *(it for it in self.used[crate] if it not in self.used)):
            words += ["--extern", f"{name}={self.kit}/rlibs/{name}.rlib"]
        for name in (it for it in self.used[crate] if it in self.used):
            words += ["--extern", f"{name}={self.library(name)}"]
        for folder in (f"{self.kit}/rlibs", *(os.path.dirname(self.library(name)) for name in self.below(crate))):
            words += ["-L", f"dependency={folder}"]
        logic = f"{self.kit}/rattle/logic/antt-project.json"
        return [*words, "--antt-project", logic, "--logic-built", f"{self.kit}/logic_built", "--jobs", "1"]

    def check(self, crate, functions, folder, kept=None):
        """Checks these functions of a crate, whose src/, specs/ and proofs/ stand in a folder; all of them if there is
        none. If a second folder is given, what is proved is kept there for later checks of the crate. The exit status, and
        the lines that the check wrote."""
        words = self.words(crate) + (["--incremental", kept] if kept else [])
        for name in functions:
            words += ["--only", name]
        ran = program.run(words, folder, is_limited=False, stderr=subprocess.STDOUT)
        return ran.status, ran.out.decode("utf-8", "replace").rstrip("\n").split("\n")

    def stamp(self, crate):
        """A checksum of all that a check of a crate reads: the kit, the crate's files, and the libraries below it."""
        read = [("kit", os.path.join(self.kit, "KIT-ID"))]
        for part in PARTS:
            for at, folders, names in os.walk(os.path.join(self.folder(crate), part)):
                folders.sort()
                read += [(os.path.relpath(path, self.top), path) for path in (os.path.join(at, it) for it in sorted(names))]
        return sum_of(read + self.sums(crate)) + " ".join(self.used[crate])

    def sums(self, crate):
        """The name of each library below a crate, and the file there that has its checksums."""
        found = [(name, os.path.join(self.library(name), "format")) for name in self.below(crate)]
        for name, path in found:
            if not os.path.isfile(path):
                raise NotBuilt(f"{name} is not built: run rt ci first")
        return found

    def copy(self, crate, folder):
        """Copies to a folder what a check of a crate reads of it."""
        for part in PARTS:
            if os.path.isdir(os.path.join(self.folder(crate), part)):
                shutil.copytree(os.path.join(self.folder(crate), part), os.path.join(folder, part))


class Refusals:
    """What the gate was told of edits that were refused on this machine, by a checksum of all that the check read."""

    def name(self, stamp, edit):
        with open(edit, "rb") as file:
            return os.path.join(KEPT, hashlib.sha256(stamp.encode() + file.read()).hexdigest())

    def told(self, stamp, edit):
        """What was said when this edit was refused, or None."""
        try:
            with open(self.name(stamp, edit), encoding="utf-8") as file:
                return file.read()
        except OSError:
            return None

    def keep(self, stamp, edit, said):
        """Keeps what was said of an edit that was refused, if that can be written."""
        try:
            os.makedirs(KEPT, exist_ok=True)
            name = self.name(stamp, edit)
            with open(f"{name}.{os.getpid()}", "w", encoding="utf-8") as file:
                file.write(said)
            os.replace(file.name, name)
        except OSError:
            pass
